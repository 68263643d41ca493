//! What is compared with the judge. A candidate makes a whole call in slices of the lengths that the case lends, the angle slices full
//! of MARK, and says what came back; and, where it has one, a pass on its own.

use crate::{
    case::Case,
    godf,
    outcome::{self, expected, Answer, Given, Work, MARK},
    reference::Reference,
    refusal::{self, Refusal},
    BOUND, PLATFORM,
};
use std::{
    cell::Cell,
    panic::{catch_unwind, AssertUnwindSafe},
};

pub trait Candidate {
    fn solve(&self, case: &Case) -> Given;
    /// None where the candidate has no pass of its own. Only asked for cases that rows 1 to 18 let pass.
    fn pass(&self, case: &Case) -> Option<Result<Vec<f64>, Refusal>>;
}

/// The answer of a candidate that stopped in the middle.
pub const STOPPED: Refusal = Refusal {
    number: 0,
    place: [0; 2],
    reason: 0,
    pass: 0,
};

thread_local! {
    /// Set while a candidate runs: where it stops is counted, and not reported.
    pub static RUNS: Cell<bool> = const { Cell::new(false) };
}

/// A candidate's answer, or None where it stopped.
fn caught<T>(answer: impl FnOnce() -> T) -> Option<T> {
    RUNS.set(true);
    let answer = catch_unwind(AssertUnwindSafe(answer)).ok();
    RUNS.set(false);
    answer
}

/// A copy of the reference: the platform's, or a wrong one.
pub struct Copied(pub &'static Reference);

impl Candidate for Copied {
    fn solve(&self, case: &Case) -> Given {
        caught(|| expected(self.0, case)).unwrap_or_else(|| Given {
            answer: Answer::Refused(STOPPED),
            coarse: vec![],
            fine: vec![],
            work: Work::Other,
        })
    }

    fn pass(&self, case: &Case) -> Option<Result<Vec<f64>, Refusal>> {
        let pass = || (self.0.pass)(case).map_err(|text| refusal::of_message(&text, 1));
        Some(caught(pass).unwrap_or(Err(STOPPED)))
    }
}

/// libgodf.a through C. A pass is a solve with threshold 0, where the solve itself has another.
pub struct Godf;

/// What the lent work holds after a call.
fn work_of(lent: &godf::Lent) -> Work {
    if lent.work.iter().all(|x| x.to_bits() == 0) && lent.numbers.iter().all(|&x| x == 0) {
        return Work::Zeros;
    }
    let held = lent.work.iter().all(|x| x.to_bits() == godf::MARK.to_bits());
    if held && lent.numbers.iter().all(|&x| x == godf::MARK_U32) {
        return Work::Untouched;
    }
    Work::Other
}

/// Document 01's answer of what a solve tells; a report that no solve may give is none of its answers.
fn answer_of(number: u64, r: godf::Report) -> Answer {
    let refusal = Refusal {
        number: number as u32,
        place: [r.place, r.other],
        reason: r.reason as u32,
        pass: r.pass as u32,
    };
    let accepted = refusal == STOPPED;
    if number != r.number || (!accepted && (r.flagged, r.cut) != (0, 0)) {
        return Answer::Refused(STOPPED);
    }
    if accepted {
        return Answer::Accepted {
            flagged: r.flagged as usize,
            cut: r.cut as usize,
        };
    }
    Answer::Refused(refusal)
}

/// Whether the lengths that libgodf.a says are those of row 18, and its answer the front of a slice that document 01 says.
fn tells_right(case: &Case, given: &Given) -> bool {
    let (n, t) = (case.n(), case.triangles());
    let [_, fine, work, numbers] = case.needed();
    let few = n <= outcome::MOST_POINTS && t <= outcome::MOST_TRIANGLES;
    let needed = if few { [fine, work, numbers] } else { [0; 3] };
    let flagged = match given.answer {
        Answer::Accepted { flagged, .. } => flagged,
        Answer::Refused(_) => 0,
    };
    let from = if flagged == 0 { &given.coarse } else { &given.fine };
    let part = if from.len() < n { &from[..0] } else { &from[..n] };
    let answer = godf::answer(&given.coarse, &given.fine, n, flagged);
    godf::needed(n, t, case.options.adaptive) == needed
        && answer.as_ptr() == part.as_ptr()
        && answer.len() == part.len()
}

impl Candidate for Godf {
    fn solve(&self, case: &Case) -> Given {
        let mut lent = godf::Lent::to(case);
        let (number, report) = godf::solve(case, &mut lent);
        let mut given = Given {
            answer: answer_of(number, report),
            work: work_of(&lent),
            coarse: lent.coarse,
            fine: lent.fine,
        };
        if !tells_right(case, &given) {
            given.answer = Answer::Refused(STOPPED);
        }
        given
    }

    fn pass(&self, case: &Case) -> Option<Result<Vec<f64>, Refusal>> {
        if case.options.adaptive == 0.0 {
            return None;
        }
        let mut one = case.clone();
        one.options.adaptive = 0.0;
        one.spare = [0; 4];
        let given = self.solve(&one);
        Some(match given.answer {
            Answer::Accepted { flagged: 0, cut: 0 } => Ok(given.coarse),
            Answer::Accepted { .. } => Err(STOPPED),
            Answer::Refused(refusal) => Err(refusal),
        })
    }
}

/// The judge's own answer, spoilt: what a port could do wrong in what it writes and counts, and document 01's "What a reviewer will
/// try". It has no pass.
pub struct Spoilt(pub fn(&Case, &mut Given));

impl Candidate for Spoilt {
    fn solve(&self, case: &Case) -> Given {
        let mut given = expected(BOUND, case);
        self.0(case, &mut given);
        given
    }

    fn pass(&self, _: &Case) -> Option<Result<Vec<f64>, Refusal>> {
        None
    }
}

fn accepted(given: &Given) -> bool {
    matches!(given.answer, Answer::Accepted { .. })
}

fn flagged(given: &Given) -> bool {
    matches!(given.answer, Answer::Accepted { flagged: 1.., .. })
}

fn gives_up(given: &mut Given, refusal: Refusal) {
    given.answer = Answer::Refused(refusal);
    given.coarse.fill(MARK);
    given.fine.fill(MARK);
}

pub const SPOILT: [(&str, Spoilt); 12] = [
    ("refuses_all", Spoilt(|_, g| gives_up(g, Refusal::row(1, 0)))),
    (
        "field_of_zeros",
        Spoilt(|c, g| {
            if accepted(g) {
                g.coarse[..c.n()].fill(0.0)
            }
        }),
    ),
    (
        "refines_nothing",
        Spoilt(|_, g| {
            if flagged(g) {
                g.answer = Answer::Accepted { flagged: 0, cut: 0 };
                g.fine.fill(MARK);
            }
        }),
    ),
    (
        "second_copies_first",
        Spoilt(|c, g| {
            if flagged(g) {
                g.fine[..c.n()].copy_from_slice(&g.coarse[..c.n()])
            }
        }),
    ),
    (
        "count_spent",
        Spoilt(|_, g| {
            if accepted(g) {
                gives_up(
                    g,
                    Refusal {
                        number: 24,
                        place: [0; 2],
                        reason: 12,
                        pass: 1,
                    },
                )
            }
        }),
    ),
    (
        "makes_up_counts",
        Spoilt(|_, g| {
            if let Answer::Accepted { flagged: 1.., cut } = &mut g.answer {
                *cut += 1;
            }
        }),
    ),
    (
        "flags_at_no_threshold",
        Spoilt(|c, g| {
            if c.options.adaptive == 0.0 && accepted(g) {
                g.answer = Answer::Accepted {
                    flagged: c.triangles(),
                    cut: 0,
                }
            }
        }),
    ),
    (
        "writes_though_refused",
        Spoilt(|_, g| {
            if !accepted(g) {
                g.coarse.iter_mut().take(1).for_each(|a| *a = 0.0)
            }
        }),
    ),
    (
        "writes_past_the_field",
        Spoilt(|c, g| {
            if accepted(g) {
                g.coarse.iter_mut().skip(c.n()).take(1).for_each(|a| *a = 0.0)
            }
        }),
    ),
    (
        "work_left",
        Spoilt(|_, g| {
            if g.work == Work::Zeros {
                g.work = Work::Other
            }
        }),
    ),
    ("work_cleared_too_early", Spoilt(|_, g| g.work = Work::Zeros)),
    (
        "pass_forgotten",
        Spoilt(|_, g| {
            if let Answer::Refused(refusal) = &mut g.answer {
                refusal.pass = refusal.pass.min(1);
            }
        }),
    ),
];

/// The candidate of a name.
pub fn candidate(name: &str) -> Option<Box<dyn Candidate>> {
    if name == "godf" {
        return Some(Box::new(Godf));
    }
    if name == "platform" {
        return Some(Box::new(Copied(PLATFORM)));
    }
    let (_, spoilt) = SPOILT.into_iter().find(|s| s.0 == name)?;
    Some(Box::new(spoilt))
}
