//! What document 01 says of a call: refused or accepted, and the whole of every lent slice afterwards. `expected` takes it from a
//! copy of the reference, with the rows that the port adds (1, 17 and 18) around it, in document 01's order.

use crate::{
    case::Case,
    reference::Reference,
    refusal::{self, Refusal},
};

/// What the lent angle slices hold before a call.
pub const MARK: f64 = -7.5;

#[derive(Clone, Copy, PartialEq, Eq, Debug)]
pub enum Answer {
    Refused(Refusal),
    Accepted { flagged: usize, cut: usize },
}

#[derive(Clone, Copy, PartialEq, Eq, Debug)]
pub enum Work {
    Untouched,
    Zeros,
    /// Neither: what no call may leave.
    Other,
}

/// An answer, and what the lent slices hold after it.
#[derive(Clone)]
pub struct Given {
    pub answer: Answer,
    pub coarse: Vec<f64>,
    pub fine: Vec<f64>,
    pub work: Work,
}

pub const MOST_POINTS: usize = 16384;
pub const MOST_TRIANGLES: usize = 32768;
const LARGEST_ANGLE: f64 = 131072.0;

fn row_1(case: &Case) -> bool {
    let whole = case.points.len() % 3 == 0 && case.tris.len() % 3 == 0;
    !whole || case.n() > MOST_POINTS || case.triangles() > MOST_TRIANGLES
}

/// The place of row 17: n for the anisotropy angle, else the first guidance angle above the limit.
fn row_17(case: &Case) -> Option<usize> {
    if case.options.anisotropy_angle.abs() > LARGEST_ANGLE {
        return Some(case.n());
    }
    let guidance = case.guidance.as_ref()?;
    guidance.angle.iter().position(|angle| angle.abs() > LARGEST_ANGLE)
}

fn row_18(case: &Case) -> bool {
    case.lent()
        .iter()
        .zip(case.needed())
        .any(|(&lent, needed)| lent < needed)
}

/// The refusal by rows 1 to 18, if any.
fn before_the_passes(reference: &Reference, case: &Case) -> Option<Refusal> {
    if row_1(case) {
        return Some(Refusal::row(1, 0));
    }
    if (reference.checks)(case).is_err() {
        // the solve itself says by which of them
        let text = (reference.solve)(case).0.expect_err("a solve that its checks refuse");
        return Some(refusal::of_message(&text, 0));
    }
    if let Some(place) = row_17(case) {
        return Some(Refusal::row(17, place as u64));
    }
    row_18(case).then(|| Refusal::row(18, 0))
}

fn refused(case: &Case, refusal: Refusal, work: Work) -> Given {
    let [coarse, fine, ..] = case.lent();
    Given {
        answer: Answer::Refused(refusal),
        coarse: vec![MARK; coarse],
        fine: vec![MARK; fine],
        work,
    }
}

pub fn expected(reference: &Reference, case: &Case) -> Given {
    if let Some(refusal) = before_the_passes(reference, case) {
        return refused(case, refusal, Work::Untouched);
    }
    let (answer, seen) = (reference.solve)(case);
    let angles = match answer {
        Ok(angles) => angles,
        Err(text) => {
            let refusal = refusal::of_message(&text, 1 + u32::from(seen.coarse.is_some()));
            assert!(refusal.number >= 19, "the checks let this pass: {text}");
            return refused(case, refusal, Work::Zeros);
        }
    };
    let coarse = seen.coarse.expect("a first pass");
    let (flagged, cut) = seen.counts.unwrap_or((0, 0));
    // the angles that the reference returns are the first n of the last pass
    let last = seen.fine.as_ref().unwrap_or(&coarse);
    assert!(
        same_angles(&angles, &last[..case.n()]),
        "the answer is not of the last pass"
    );
    assert!(
        last.len() == case.n() + cut,
        "a field of other points than the refined floor's"
    );
    let [room, fine_room, ..] = case.lent();
    Given {
        answer: Answer::Accepted { flagged, cut },
        coarse: filled(&coarse, room),
        fine: filled(seen.fine.as_deref().unwrap_or(&[]), fine_room),
        work: Work::Zeros,
    }
}

fn filled(front: &[f64], room: usize) -> Vec<f64> {
    assert!(front.len() <= room, "{} angles in a slice of {room}", front.len());
    let mut slice = front.to_vec();
    slice.resize(room, MARK);
    slice
}

/// Equal bits, all NaNs counting as one.
pub fn same(a: f64, b: f64) -> bool {
    a.to_bits() == b.to_bits() || (a.is_nan() && b.is_nan())
}

pub fn same_angles(a: &[f64], b: &[f64]) -> bool {
    a.len() == b.len() && a.iter().zip(b).all(|(&a, &b)| same(a, b))
}

/// One pass on its own: its angles, or its refusal. Only for cases that rows 1 to 18 let pass.
pub fn expected_pass(reference: &Reference, case: &Case) -> Option<Result<Vec<f64>, Refusal>> {
    if before_the_passes(reference, case).is_some() {
        return None;
    }
    Some((reference.pass)(case).map_err(|text| refusal::of_message(&text, 1)))
}
