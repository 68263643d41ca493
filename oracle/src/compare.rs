//! In what a candidate's answer differs from the judge's: kinds of difference, every double by its bits, all NaNs counting as one.

use crate::{
    candidates::{Candidate, STOPPED},
    case::Case,
    outcome::{expected, expected_pass, same_angles, Answer, Given},
    refusal::Refusal,
    BOUND,
};

pub const KINDS: [&str; 16] = [
    "stopped",
    "accepted or refused",
    "number",
    "place",
    "reason",
    "pass",
    "flagged",
    "cut",
    "coarse angles",
    "coarse rest",
    "fine angles",
    "fine rest",
    "work",
    "one pass: accepted or refused",
    "one pass: refusal",
    "one pass: angles",
];

pub type Kind = &'static str;

fn refusals(want: &Refusal, got: &Refusal) -> Vec<Kind> {
    let parts = [
        ("stopped", *got == STOPPED),
        ("number", want.number != got.number),
        ("place", want.place != got.place),
        ("reason", want.reason != got.reason),
        ("pass", want.pass != got.pass),
    ];
    parts.iter().filter(|p| p.1).map(|p| p.0).collect()
}

/// Parts before and after so many numbers.
fn parts(slice: &[f64], at: usize) -> (&[f64], &[f64]) {
    slice.split_at(at.min(slice.len()))
}

fn solves(case: &Case, want: &Given, got: &Given) -> Vec<Kind> {
    let mut kinds = match (&want.answer, &got.answer) {
        (Answer::Refused(want), Answer::Refused(got)) => refusals(want, got),
        (Answer::Accepted { .. }, Answer::Refused(STOPPED)) => vec!["stopped", "accepted or refused"],
        (Answer::Accepted { flagged, cut }, Answer::Accepted { flagged: f, cut: c }) => {
            let parts = [("flagged", flagged != f), ("cut", cut != c)];
            parts.iter().filter(|p| p.1).map(|p| p.0).collect()
        }
        _ => vec!["accepted or refused"],
    };
    if kinds.contains(&"stopped") {
        return kinds;
    }
    let fine = match want.answer {
        Answer::Accepted { flagged: 1.., cut } => case.n() + cut,
        _ => 0,
    };
    let (coarse, rest) = parts(&want.coarse, case.n());
    let (got_coarse, got_rest) = parts(&got.coarse, case.n());
    let (fine_field, fine_rest) = parts(&want.fine, fine);
    let (got_fine, got_fine_rest) = parts(&got.fine, fine);
    let more = [
        ("coarse angles", same_angles(coarse, got_coarse)),
        ("coarse rest", same_angles(rest, got_rest)),
        ("fine angles", same_angles(fine_field, got_fine)),
        ("fine rest", same_angles(fine_rest, got_fine_rest)),
        ("work", want.work == got.work || case.lent()[2..] == [0, 0]),
    ];
    kinds.extend(more.iter().filter(|p| !p.1).map(|p| p.0));
    kinds
}

fn passes(candidate: &dyn Candidate, case: &Case) -> Vec<Kind> {
    let Some(want) = expected_pass(BOUND, case) else {
        return vec![];
    };
    match (want, candidate.pass(case)) {
        (_, None) => vec![],
        (Ok(a), Some(Ok(b))) if same_angles(&a, &b) => vec![],
        (Ok(_), Some(Ok(_))) => vec!["one pass: angles"],
        (Err(a), Some(Err(b))) if a == b => vec![],
        (Err(_), Some(Err(_))) => vec!["one pass: refusal"],
        _ => vec!["one pass: accepted or refused"],
    }
}

/// All kinds in which a candidate differs on a case, given the judge's answer.
pub fn against(candidate: &dyn Candidate, case: &Case, want: &Given) -> Vec<Kind> {
    let mut kinds = solves(case, want, &candidate.solve(case));
    kinds.extend(passes(candidate, case));
    kinds
}

pub fn differences(candidate: &dyn Candidate, case: &Case) -> Vec<Kind> {
    against(candidate, case, &expected(BOUND, case))
}
