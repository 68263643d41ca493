//! Compares passes and whole solves of a candidate with the judge's, on calls of the generator: how many were tried, what came out,
//! and how many differ, by kind. A call that differs is made small and printed in a form that can be run again.

use crate::{
    candidates::{Candidate, Copied, SPOILT},
    case::{self, Case},
    cases,
    command::Copy,
    compare::{against, differences, Kind, KINDS},
    known,
    outcome::{expected, Answer, Given},
    shrink::shrink,
    BOUND,
};
use std::collections::BTreeMap;

/// The calls of a comparison: those whose outcome is known, `count` small ones, and one large in 500.
pub fn calls(count: u64, seed: u64) -> impl Iterator<Item = Case> {
    let small = (0..count).map(move |i| cases::nth(seed, i));
    let large = (0..count / 500).map(move |i| cases::large(seed, i));
    known::cases().into_iter().chain(small).chain(large)
}

/// The same with threshold 0: each comes to one pass, or to a refusal.
pub fn passes(count: u64, seed: u64) -> impl Iterator<Item = Case> {
    calls(count, seed).map(|mut case| {
        case.options.adaptive = 0.0;
        case
    })
}

/// A short name of what came out.
pub fn named(given: &Given) -> String {
    match given.answer {
        Answer::Accepted { flagged: 0, .. } => "accepted, one pass".to_string(),
        Answer::Accepted { .. } => "accepted, refined".to_string(),
        Answer::Refused(r) => match (r.number, r.pass) {
            (24, pass) => format!("refused 24, reason {:2}, pass {pass}", r.reason),
            (number, 0) => format!("refused {number:2}"),
            (number, pass) => format!("refused {number:2}, pass {pass}"),
        },
    }
}

/// What comes out of so many calls; and that each is read back from its printed form.
pub fn tell(count: u64, seed: u64) {
    let mut outcomes: BTreeMap<String, usize> = BTreeMap::new();
    for case in calls(count, seed) {
        *outcomes.entry(named(&expected(BOUND, &case))).or_default() += 1;
        let text = case.to_string();
        let read = case::parse(&text).map(|c| c.to_string());
        assert!(read.as_ref() == Ok(&text), "not read back: {text}{read:?}");
    }
    for (name, times) in outcomes {
        println!("{times:8} {name}");
    }
}

#[derive(Default)]
pub struct Tally {
    pub tried: usize,
    pub differ: usize,
    pub kinds: BTreeMap<Kind, usize>,
    pub outcomes: BTreeMap<String, usize>,
    pub first: Option<Case>,
}

impl Tally {
    fn add(&mut self, case: &Case, want: &Given, kinds: &[Kind]) {
        self.tried += 1;
        *self.outcomes.entry(named(want)).or_default() += 1;
        self.differ += usize::from(!kinds.is_empty());
        for kind in kinds {
            *self.kinds.entry(kind).or_default() += 1;
        }
        if !kinds.is_empty() && self.first.is_none() {
            self.first = Some(case.clone());
        }
    }

    /// The kinds and how often each, in one line.
    pub fn by_kind(&self) -> String {
        let parts = KINDS
            .iter()
            .filter_map(|kind| self.kinds.get(kind).map(|times| format!("{kind} {times}")));
        parts.collect::<Vec<_>>().join(", ")
    }
}

/// Every candidate on the same calls, the judge asked once for each.
pub fn tallies(candidates: &[Box<dyn Candidate>], calls: impl Iterator<Item = Case>) -> Vec<Tally> {
    let mut tallies: Vec<Tally> = candidates.iter().map(|_| Tally::default()).collect();
    for case in calls {
        let want = expected(BOUND, &case);
        for (candidate, tally) in candidates.iter().zip(&mut tallies) {
            tally.add(&case, &want, &against(candidate.as_ref(), &case, &want));
        }
    }
    tallies
}

/// A case that differs, as small as it gets while it differs in the same kind.
pub fn smallest(candidate: &dyn Candidate, case: &Case) -> Case {
    let kind = *differences(candidate, case).first().expect("a case that differs");
    shrink(case, &|c| differences(candidate, c).contains(&kind), 3000)
}

/// One case on one candidate: both answers, and in what they differ.
pub fn attempt(candidate: &dyn Candidate, case: &Case) -> bool {
    let (want, got) = (expected(BOUND, case), candidate.solve(case));
    println!(
        "expected {:?}\n  coarse {:?}\n  fine {:?}",
        want.answer, want.coarse, want.fine
    );
    println!(
        "answered {:?}\n  coarse {:?}\n  fine {:?}",
        got.answer, got.coarse, got.fine
    );
    let kinds = differences(candidate, case);
    println!(
        "differs in: {}",
        if kinds.is_empty() {
            "nothing".to_string()
        } else {
            kinds.join(", ")
        }
    );
    kinds.is_empty()
}

/// The comparison of one candidate: what the calls come to, a line of counts, and the first case that differs, made small. True where
/// none differs.
pub fn compare(name: &str, candidate: Box<dyn Candidate>, calls: impl Iterator<Item = Case>) -> bool {
    let candidates = [candidate];
    let tally = &tallies(&candidates, calls)[0];
    for (outcome, times) in &tally.outcomes {
        println!("{times:8} {outcome}");
    }
    println!("{name} {} compared, {} differ", tally.tried, tally.differ);
    if let Some(case) = &tally.first {
        println!("by kind: {}", tally.by_kind());
        let small = smallest(candidates[0].as_ref(), case);
        println!("the first that differs, made small (run it again: oracle/run try {name} < FILE):\n{small}");
        attempt(candidates[0].as_ref(), &small);
    }
    tally.differ == 0
}

/// Every copy and every spoilt answer on the same calls: how many differ, by kind. False where one is not noticed that solves are to
/// notice, or one is that no input can show.
pub fn notice(copies: &[Copy], count: u64, seed: u64) -> bool {
    let mut names: Vec<(&str, &str)> = copies.iter().map(|c| (c.name, c.layers)).collect();
    names.extend(SPOILT.iter().map(|s| (s.0, "solve")));
    let mut candidates: Vec<Box<dyn Candidate>> = vec![];
    candidates.extend(
        copies
            .iter()
            .map(|c| Box::new(Copied(c.reference)) as Box<dyn Candidate>),
    );
    candidates.extend(SPOILT.map(|s| Box::new(s.1) as Box<dyn Candidate>));
    let mut good = true;
    for (tally, (name, layers)) in tallies(&candidates, calls(count, seed)).iter().zip(names) {
        let kinds = if tally.differ == 0 {
            String::new()
        } else {
            format!(": {}", tally.by_kind())
        };
        println!("{name}, {} of {} solves noticed{kinds}", tally.differ, tally.tried);
        let expects = layers.split(' ').any(|layer| layer == "solve");
        if (expects && tally.differ == 0) || (layers == "hidden" && tally.differ > 0) {
            println!("  NOT as it should be: {layers}");
            good = false;
        }
    }
    good
}
