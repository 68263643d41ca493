//! Which reasons of row 24 the reference reaches: a search over small floors at extreme scales, weights, sizes and counts, and the
//! smallest input found for each reason and pass; and in which calls a NaN arises on the way.

use crate::{
    case::{Boundary, Case, Guidance, Options},
    floors::{self, Floor},
    known::meets_nan,
    outcome::{expected, Answer},
    random::Random,
    shrink::shrink,
    solves::named,
    BOUND,
};
use std::collections::BTreeMap;

fn extreme(r: &mut Random) -> f64 {
    match r.below(5) {
        0 => r.pick(&[5e-324, 1e-310, 1e-300, 1e-160, 1e150, 1e300, f64::MAX]),
        1 => r.scale(-320.0, 308.0),
        2 => r.scale(-20.0, 20.0),
        _ => r.pick(&[0.0, 1.0, 0.5, 4.0]),
    }
}

/// A small floor of any scale and thinness.
fn scaled(r: &mut Random) -> Floor {
    let (mut floor, _) = floors::floor(r, 9);
    let (a, b) = match r.below(5) {
        0 => (r.scale(-162.0, 155.0), 1.0),
        1 => (r.scale(-162.0, 155.0), r.scale(-14.0, 0.0)),
        2 => (1.0, r.scale(-14.0, 0.0)),
        // areas and their sums next to the largest double
        3 => (r.scale(152.0, 154.5), 1.0),
        _ => (1.0, 1.0),
    };
    floor.points.iter_mut().for_each(|p| *p = [p[0] * a, p[1] * a * b, 0.0]);
    floor
}

/// The call number i of a seed, at the ends of the format in one thing or several.
pub fn nth(seed: u64, i: u64) -> Case {
    let mut r = Random::new(
        seed.wrapping_mul(0x3_0000_0001)
            .wrapping_add(i.wrapping_mul(0x9e37_79b9)),
    );
    let mut floor = scaled(&mut r);
    // a second floor about the same origin, of another scale, now and then without a boundary
    if r.one_in(4) {
        let mut other = scaled(&mut r);
        if r.one_in(2) {
            other.tris.extend(other.tris.clone());
        }
        let n = floor.points.len() as u32;
        floor.points.extend(other.points);
        floor.tris.extend(other.tris.iter().map(|t| t.map(|v| v + n)));
    }
    let n = floor.points.len();
    let spread = r.pick(&[0.0, 1.0, 10.0, 100.0, 300.0]);
    let options = Options {
        accurate: r.one_in(2),
        holomorphic: r.pick(&[0.0, 0.0, 1.0, -1.0, 0.5]),
        anisotropy: if r.one_in(3) { extreme(&mut r).max(5e-324) } else { 1.0 },
        anisotropy_angle: r.between(-1.0, 1.0),
        boundary: match r.below(4) {
            0 => Boundary::Tangent,
            1 => Boundary::Weak(extreme(&mut r)),
            _ => Boundary::None,
        },
        adaptive: if r.one_in(2) { r.pick(&[5e-324, 1e-9, 0.1]) } else { 0.0 },
    };
    let weight = extreme(&mut r);
    let guidance = r.one_in(3).then(|| Guidance {
        weight,
        angle: (0..n).map(|_| r.between(-1.0, 1.0)).collect(),
    });
    let mut case = Case {
        points: floor.points.concat(),
        tris: floor.tris.concat(),
        sizes: (0..n).map(|_| r.scale(-spread, spread)).collect(),
        options,
        guidance,
        iterations: r.pick(&[1, 2, 10, 40]),
        spare: [0; 4],
    };
    if case.bounded() && r.one_in(2) {
        case.iterations = 6001;
    }
    case
}

/// Reason and pass, where row 24 refuses.
fn reason(case: &Case) -> Option<(u32, u32)> {
    match expected(BOUND, case).answer {
        Answer::Refused(refusal) if refusal.number == 24 => Some((refusal.reason, refusal.pass)),
        _ => None,
    }
}

/// How many inputs of one reason are made small, to take the shortest.
const FEW: usize = 5;

pub fn search(count: u64, seed: u64) {
    let mut found: BTreeMap<(u32, u32), (usize, Vec<Case>)> = BTreeMap::new();
    let mut with_nan: BTreeMap<String, usize> = BTreeMap::new();
    for case in (0..count).map(|i| nth(seed, i)) {
        if meets_nan(&case) {
            *with_nan.entry(named(&expected(BOUND, &case))).or_default() += 1;
        }
        if let Some(key) = reason(&case) {
            let (times, few) = found.entry(key).or_default();
            *times += 1;
            few.push(case);
            few.sort_by_key(|c| c.tris.len());
            few.truncate(FEW);
        }
    }
    println!("{count} inputs, seed {seed}");
    for (key, (times, few)) in &found {
        let small = few.iter().map(|case| shrink(case, &|c| reason(c) == Some(*key), 2000));
        let shortest = small.min_by_key(|c| c.to_string().len()).expect("an input");
        println!(
            "reason {} in pass {}: {times} inputs; the smallest:\n{shortest}",
            key.0, key.1
        );
    }
    for (outcome, times) in with_nan {
        println!("a NaN on the way: {times} inputs {outcome}");
    }
    for pass in [1, 2] {
        let missing = (1..=13)
            .filter(|r| !found.contains_key(&(*r, pass)))
            .map(|r| r.to_string());
        println!(
            "reasons not reached in pass {pass}: {}",
            missing.collect::<Vec<_>>().join(" ")
        );
    }
}
