//! Calls of refinement on small floors, sound and damaged: the inputs of the recorded list (refinement.rs).

use crate::{random::Random, BOUND};
use std::f64::consts::{FRAC_PI_2, FRAC_PI_4, PI};

const POINTS: usize = 8;
const TRIANGLES: usize = 5;
/// Room of the four result slices: points, sizes, corners, ends.
const ROOM: [usize; 4] = [72, 24, 64, 44];

/// One call: what is given, and the lengths of the result slices.
pub struct Call {
    pub points: Vec<f64>,
    pub tris: Vec<u32>,
    pub sizes: Vec<f64>,
    pub angles: Vec<f64>,
    pub threshold: f64,
    pub lengths: [usize; 4],
}

pub fn triples<T: Copy>(v: &[T]) -> Vec<[T; 3]> {
    v.chunks_exact(3).map(|c| [c[0], c[1], c[2]]).collect()
}

pub fn floor(tris: &[u32]) -> Vec<[usize; 3]> {
    triples(tris).iter().map(|t| t.map(|v| v as usize)).collect()
}

pub fn sides(t: [usize; 3]) -> [(usize, usize); 3] {
    [(t[0], t[1]), (t[1], t[2]), (t[2], t[0])]
}

/// The least lengths of the result slices of a call.
pub fn least(c: &Call) -> [usize; 4] {
    let k = c.tris.len() / 3;
    let more = c.points.len() / 3 + 3 * k;
    [3 * more, more, 12 * k, 8 * k]
}

fn shuffle<T>(r: &mut Random, v: &mut [T]) {
    for i in (1..v.len()).rev() {
        v.swap(i, r.below(i + 1));
    }
}

/// A finite coordinate: whole, of one size, huge so that sums overflow, tiny, or of any size.
fn coordinate(r: &mut Random, kind: usize) -> f64 {
    let x = match kind {
        0 => r.below(5) as f64,
        1 => r.sign() * r.near_one(&[f64::MAX, 1.7e308, 8.9e307], 2),
        2 => r.sign() * r.pick(&[5e-324, 1e-323, 1.5e-323, f64::MIN_POSITIVE, 0.0]),
        3 => r.any(),
        _ => r.between(-10.0, 10.0),
    };
    if x.is_finite() {
        x
    } else {
        1.0
    }
}

/// Triangles: a middle one with neighbours, a fan, round one side, or any corners at all; some again. The middle one too.
fn triangles(r: &mut Random, n: usize) -> (Vec<[usize; 3]>, Option<[usize; 3]>) {
    let mut tris: Vec<[usize; 3]> = Vec::new();
    let mut middle = None;
    match r.below(6) {
        0..=2 if n >= 6 => {
            middle = Some([0, 1, 2]);
            tris.push([0, 1, 2]);
            for (k, &(a, b)) in [(0, 1), (1, 2), (2, 0)].iter().enumerate() {
                if !r.one_in(6) {
                    tris.push([a, b, 3 + k]);
                }
            }
        }
        3 if n >= 4 => {
            for i in 1..(n - 1).min(1 + TRIANGLES) {
                tris.push([0, i, i + 1]);
            }
        }
        4 if n >= 4 => {
            for i in 2..n.min(2 + TRIANGLES) {
                tris.push([0, 1, i]);
            }
        }
        _ => {
            for _ in 0..1 + r.below(TRIANGLES) {
                tris.push([r.below(n), r.below(n), r.below(n)]);
            }
        }
    }
    if tris.len() < TRIANGLES && r.one_in(4) {
        tris.push(tris[r.below(tris.len())]);
    }
    if tris.len() < TRIANGLES && r.one_in(6) {
        let (a, b) = (r.below(n), r.below(n));
        tris.push([a, b, a]);
    }
    let mut names: Vec<usize> = (0..n).collect();
    shuffle(r, &mut names);
    shuffle(r, &mut tris);
    for t in &mut tris {
        *t = t.map(|v| names[v]);
        t.rotate_left(r.below(3));
        if r.one_in(2) {
            t.swap(1, 2);
        }
    }
    (tris, middle.map(|t| t.map(|v: usize| names[v])))
}

fn angles(r: &mut Random, n: usize) -> Vec<f64> {
    let kind = r.below(6);
    let base = r.pick(&[0.0, 0.25, -1.0, 1.5]);
    (0..n)
        .map(|_| match kind {
            0..=2 => {
                base + if r.one_in(3) {
                    r.pick(&[0.5, 0.375, 0.75, -0.5])
                } else {
                    0.0
                }
            }
            3 => r.between(-4.0, 4.0),
            4 => match r.below(6) {
                0 => f64::NAN,
                1 => r.sign() * f64::INFINITY,
                2 | 3 => r.sign() * r.near_one(&[f64::MAX - 1e300, 1.7e308], 2),
                _ => base,
            },
            _ => match r.below(4) {
                0 => r.sign() * r.near_one(&[0.0, FRAC_PI_4, FRAC_PI_2, PI], 2),
                1 => r.sign() * r.scale(-300.0, 20.0),
                2 => r.any(),
                _ => base,
            },
        })
        .collect()
}

fn threshold(r: &mut Random, tris: &[[usize; 3]], angles: &[f64]) -> f64 {
    let met = (BOUND.triangle_field_variation)(angles, &tris[r.below(tris.len())]);
    match r.below(8) {
        0 => r.pick(&[0.0, -0.0, 5e-324]),
        1 | 2 => met,
        3 if met > 0.0 => f64::from_bits(met.to_bits() - 1),
        4 => r.near_one(&[FRAC_PI_4, 0.5, 0.25], 1),
        5 => r.pick(&[f64::MAX, 1.0, FRAC_PI_2]),
        _ => r.between(0.0, 0.5),
    }
}

/// A call that is accepted.
pub fn sound(r: &mut Random) -> Call {
    let n = if r.one_in(8) {
        1 + r.below(POINTS)
    } else {
        4 + r.below(POINTS - 3)
    };
    let (tris, middle) = triangles(r, n);
    let kind = r.below(10);
    let mut points = Vec::new();
    for _ in 0..n {
        points.extend([
            coordinate(r, kind),
            coordinate(r, kind),
            if r.one_in(3) { r.any() } else { 0.0 },
        ]);
    }
    let kind = r.below(5);
    let sizes = (0..n)
        .map(|_| match kind {
            0 => 1.0,
            1 => r.near_one(&[f64::MAX - 1e300, 1.7e308, 8.9e307], 2),
            2 => r.pick(&[5e-324, 1e-323, 1.5e-323, f64::MIN_POSITIVE]),
            _ => r.scale(-3.0, 3.0),
        })
        .collect();
    let mut angles = angles(r, n);
    let mut threshold = threshold(r, &tris, &angles);
    // a middle triangle that does not turn, so that its neighbours alone cut its sides
    if let Some(t) = middle.filter(|_| !r.one_in(3)) {
        if r.one_in(2) {
            let base = r.between(-1.0, 1.0);
            threshold = r.between(0.0, 0.375);
            angles.fill_with(|| base + if r.one_in(2) { r.pick(&[0.5, 0.75, -0.5]) } else { 0.0 });
        }
        angles[t[1]] = angles[t[0]];
        angles[t[2]] = angles[t[0]];
    }
    let tris = tris.iter().flatten().map(|&v| v as u32).collect();
    let mut c = Call {
        points,
        tris,
        sizes,
        angles,
        threshold,
        lengths: [0; 4],
    };
    c.lengths = least(&c);
    for (length, room) in c.lengths.iter_mut().zip(ROOM) {
        if r.one_in(2) {
            *length += r.below(room - *length + 1);
        }
    }
    c
}

/// Breaks a call so that a row of the table holds of it: 1, 3 to 8, 5 by the angles (as 9), 12 or 18.
pub fn damage(r: &mut Random, c: &mut Call, row: usize) {
    const BAD: [f64; 3] = [f64::NAN, f64::INFINITY, f64::NEG_INFINITY];
    let n = c.sizes.len().max(1);
    match row {
        1 if r.one_in(2) => c.points.truncate(c.points.len().saturating_sub(1 + r.below(2))),
        1 => c.tris.truncate(c.tris.len().saturating_sub(1 + r.below(2))),
        3 => {
            c.points.clear();
            if r.one_in(2) {
                c.sizes.clear();
                c.angles.clear();
            }
        }
        4 => c.tris.clear(),
        5 if n < POINTS && r.one_in(2) => c.sizes.push(1.0),
        5 => c.sizes.truncate(r.below(n)),
        6 => {
            for _ in 0..1 + r.below(3) {
                if c.points.len() >= 3 {
                    let k = 3 * r.below(c.points.len() / 3) + r.below(2);
                    c.points[k] = r.pick(&BAD);
                }
            }
        }
        7 => {
            for _ in 0..1 + r.below(3) {
                if !c.sizes.is_empty() {
                    let k = r.below(c.sizes.len());
                    c.sizes[k] = if r.one_in(2) {
                        r.pick(&BAD)
                    } else {
                        r.pick(&[0.0, -0.0, -1.0, -5e-324])
                    };
                }
            }
        }
        8 => {
            for _ in 0..1 + r.below(3) {
                if !c.tris.is_empty() {
                    let k = r.below(c.tris.len());
                    let n = (c.points.len() / 3) as u32;
                    c.tris[k] = r.pick(&[n, n, n + 1, u32::MAX, u32::MAX - 1]);
                }
            }
        }
        9 if c.angles.len() < POINTS && r.one_in(2) => c.angles.push(0.0),
        9 => c.angles.truncate(r.below(n)),
        12 if r.one_in(2) => c.threshold = r.pick(&BAD),
        12 => c.threshold = r.pick(&[-1.0, -5e-324, f64::MIN]),
        _ => {
            let k = r.below(4);
            let least = least(c)[k];
            let less = if r.one_in(2) { 1 } else { 1 + r.below(least.max(1)) };
            c.lengths[k] = least.saturating_sub(less);
        }
    }
}

/// The row of document 01's table by which a call is refused, and the place; row 5 by the angles as 9. The reference has none.
pub fn refusal(c: &Call) -> Option<(u64, u64)> {
    let (n, k) = (c.points.len() / 3, c.tris.len() / 3);
    if c.points.len() % 3 != 0 || c.tris.len() % 3 != 0 {
        return Some((1, 0));
    }
    if n == 0 {
        return Some((3, 0));
    }
    if k == 0 {
        return Some((4, 0));
    }
    if c.sizes.len() != n {
        return Some((5, 0));
    }
    if let Some(i) = (0..n).find(|&i| !c.points[3 * i].is_finite() || !c.points[3 * i + 1].is_finite()) {
        return Some((6, i as u64));
    }
    if let Some(i) = c.sizes.iter().position(|&s| !(s.is_finite() && s > 0.0)) {
        return Some((7, i as u64));
    }
    if let Some(i) = c.tris.chunks(3).position(|t| t.iter().any(|&v| v as usize >= n)) {
        return Some((8, i as u64));
    }
    if c.angles.len() != n {
        return Some((9, 0));
    }
    if !c.threshold.is_finite() || c.threshold < 0.0 {
        return Some((12, 0));
    }
    (0..4).any(|i| c.lengths[i] < least(c)[i]).then_some((18, 0))
}
