//! Records whole solves on small floors, for crates/replay_solves to replay: `passes`, calls with threshold 0, which come to one pass or to
//! a refusal, and `solves`, calls with any other. crates/replay_solves/data/README.md says what a row holds.

use crate::{
    case::{Boundary, Case, Guidance},
    cases, known,
    outcome::{expected, Answer, Given},
    reference::Reference,
    solves::named,
    words::{word, words, Parted},
};
use std::{collections::BTreeMap, path::Path};

const POINTS: usize = 12;
const TRIANGLES: usize = 12;

/// Whether every part has room in the program.
fn fits(case: &Case) -> bool {
    let angles = case.guidance.as_ref().map_or(0, |g| g.angle.len());
    case.points.len() <= 3 * POINTS + 3
        && case.n() <= POINTS
        && case.tris.len() <= 3 * TRIANGLES + 3
        && case.triangles() <= TRIANGLES
        && case.sizes.len() <= 16
        && angles <= 16
}

/// Four counts in one word, the first uppermost.
fn four(parts: [u64; 4]) -> u64 {
    assert!(parts.iter().all(|&p| p < 1 << 16), "a count over 16 bits");
    parts.iter().fold(0, |word, part| word << 16 | part)
}

fn row(case: &Case, given: &Given) -> Vec<u64> {
    let o = &case.options;
    let none = vec![];
    let angles = case.guidance.as_ref().map_or(&none, |g| &g.angle);
    let (boundary, weight) = match o.boundary {
        Boundary::None => (0, 0.0),
        Boundary::Tangent => (1, 0.0),
        Boundary::Weak(weight) => (2, weight),
    };
    let (guided, pull) = case.guidance.as_ref().map_or((0, 0.0), |g| (1, g.weight));
    let counts = [case.points.len(), case.tris.len(), case.sizes.len(), angles.len()];
    let (told, places, coarse, fine) = match given.answer {
        Answer::Refused(r) => (
            [r.number.into(), r.reason.into(), r.pass.into()],
            [r.place[0], r.place[1], 0, 0],
            0,
            0,
        ),
        Answer::Accepted { flagged, cut } => (
            [0; 3],
            [0, 0, flagged as u64, cut as u64],
            case.n(),
            if flagged > 0 { case.n() + cut } else { 0 },
        ),
    };
    let mut row = vec![
        0,
        four(counts.map(|k| k as u64)),
        four(case.lent().map(|k| k as u64)),
        four([guided, o.accurate.into(), boundary, coarse as u64]),
        word(pull),
        word(o.holomorphic),
        word(o.anisotropy),
        word(o.anisotropy_angle),
        word(weight),
        word(o.adaptive),
        case.iterations,
        four([told[0], told[1], told[2], fine as u64]),
        four(places),
    ];
    row.extend(words(&case.points));
    row.extend(words(&case.sizes));
    row.extend(words(angles));
    row.extend(case.tris.iter().map(|&v| u64::from(v)));
    row.extend(words(&given.coarse[..coarse]));
    row.extend(words(&given.fine[..fine]));
    row[0] = row.len() as u64;
    row
}

/// The unit square in two triangles with every kind of double in use, and calls like it in which one of its doubles is NaN: each
/// coordinate, size and guidance angle, both weights, the threshold and the other options. z may be NaN: nothing reads it.
fn with_nan() -> Vec<Case> {
    let mut whole = Case::base();
    whole.points = vec![0.0, 0.0, 0.0, 1.0, 0.0, 0.0, 1.0, 1.0, 0.0, 0.0, 1.0, 0.0];
    whole.tris = vec![0, 1, 2, 0, 2, 3];
    whole.sizes = vec![1.0, 1.25, 1.5, 1.25];
    whole.options.holomorphic = 0.5;
    whole.options.anisotropy = 2.0;
    whole.options.anisotropy_angle = 0.25;
    whole.options.boundary = Boundary::Weak(1.0);
    let angle = vec![0.1, 0.2, 0.3, 0.4];
    whole.guidance = Some(Guidance { weight: 0.5, angle });
    let mut cases = vec![whole.clone()];
    let mut put = |edit: &dyn Fn(&mut Case)| {
        let mut case = whole.clone();
        edit(&mut case);
        cases.push(case);
    };
    for k in 0..12 {
        put(&|c| c.points[k] = f64::NAN);
    }
    for k in 0..4 {
        put(&|c| c.sizes[k] = f64::NAN);
        put(&|c| c.guidance.as_mut().expect("guidance").angle[k] = f64::NAN);
    }
    put(&|c| c.guidance.as_mut().expect("guidance").weight = f64::NAN);
    put(&|c| c.options.boundary = Boundary::Weak(f64::NAN));
    put(&|c| c.options.holomorphic = f64::NAN);
    put(&|c| c.options.anisotropy = f64::NAN);
    put(&|c| c.options.anisotropy_angle = f64::NAN);
    put(&|c| c.options.adaptive = f64::NAN);
    cases
}

/// What a call has of -0 and NaN.
fn kinds(case: &Case, given: &Given) -> Vec<&'static str> {
    let o = &case.options;
    let none = vec![];
    let angles = case.guidance.as_ref().map_or(&none, |g| &g.angle);
    let weight = case.guidance.as_ref().map_or(0.0, |g| g.weight);
    let weak = if let Boundary::Weak(w) = o.boundary { w } else { 0.0 };
    let options = [
        weight,
        weak,
        o.holomorphic,
        o.anisotropy,
        o.anisotropy_angle,
        o.adaptive,
    ];
    let mut doubles = case.points.iter().chain(&case.sizes).chain(angles).chain(&options);
    let passes = !matches!(given.answer, Answer::Refused(r) if r.number < 19);
    let all = [
        (known::has_minus_zero(given), "with an angle -0"),
        (doubles.any(|x| x.is_nan()), "with a NaN given"),
        (passes && known::meets_nan(case), "with a NaN on the way"),
    ];
    all.into_iter().filter_map(|(has, kind)| has.then_some(kind)).collect()
}

/// The calls whose outcome is known, those with a NaN, and the first of a seed, that have room in the program: `count` solves, and twice
/// as many passes. What they come to is said on the error stream.
pub fn record(reference: &Reference, seed: u64, count: u64, folder: &Path) {
    let calls = || {
        known::cases()
            .into_iter()
            .chain(with_nan())
            .chain((0..).map(|i| cases::nth(seed, i)))
            .filter(fits)
    };
    let list = |name: &str, calls: &mut dyn Iterator<Item = Case>| {
        let mut list = Parted::new(folder, name);
        let mut outcomes: BTreeMap<String, usize> = BTreeMap::new();
        for case in calls {
            let given = expected(reference, &case);
            *outcomes.entry(named(&given)).or_default() += 1;
            for kind in kinds(&case, &given) {
                *outcomes.entry(kind.to_string()).or_default() += 1;
            }
            list.row(&row(&case, &given));
        }
        for (outcome, times) in outcomes {
            eprintln!("{name} {times:6} {outcome}");
        }
    };
    list(
        "passes",
        &mut calls().filter(|c| c.options.adaptive == 0.0).take(2 * count as usize),
    );
    list(
        "solves",
        &mut calls().filter(|c| c.options.adaptive != 0.0).take(count as usize),
    );
}
