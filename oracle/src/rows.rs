//! Calls at the rows of document 01's table: each row with its neighbours, just inside and just outside, at random places, and two
//! rows at once, so that their order shows.

use crate::{
    case::{Boundary, Case, Guidance},
    random::Random,
};

const BAD: [f64; 3] = [f64::NAN, f64::INFINITY, f64::NEG_INFINITY];
/// Where "not finite, or below 0" begins, from both sides.
const WEIGHTS: [f64; 8] = [-5e-324, -0.0, 0.0, 5e-324, -1.0, f64::NAN, f64::INFINITY, f64::MAX];

/// Puts a call at one row or two.
pub fn put(r: &mut Random, case: &mut Case) {
    let row = 1 + r.below(24);
    at(r, case, row);
    if r.one_in(4) {
        let row = 1 + r.below(24);
        at(r, case, row);
    }
}

/// A point's number, not always the first.
fn some(r: &mut Random, count: usize) -> Option<usize> {
    (count > 0).then(|| r.below(count))
}

fn guidance(case: &mut Case, n: usize) -> &mut Guidance {
    case.guidance.get_or_insert_with(|| Guidance {
        weight: 1.0,
        angle: vec![0.25; n],
    })
}

fn at(r: &mut Random, case: &mut Case, row: usize) {
    let n = case.n();
    match row {
        1 => match r.below(5) {
            0 => case.points.push(0.0),
            1 => case.points.truncate(case.points.len().saturating_sub(1)),
            2 => case.tris.truncate(case.tris.len().saturating_sub(1 + r.below(2))),
            // one point, or one triangle, over the limits; and just as many
            3 if r.one_in(20) => {
                let n = r.pick(&[16384, 16385]);
                case.points.resize(3 * n, 0.5);
                case.sizes.resize(n, 1.0);
            }
            4 if r.one_in(20) && case.tris.len() >= 3 => {
                let t = r.pick(&[32768, 32769]);
                let first = case.tris[..3].to_vec();
                case.tris = first.iter().copied().cycle().take(3 * t).collect();
            }
            _ => case.tris.push(0),
        },
        2 => case.iterations = r.pick(&[0, 1]),
        3 => {
            case.points.clear();
            if r.one_in(2) {
                case.sizes.clear();
            }
        }
        4 => case.tris.clear(),
        5 if r.one_in(2) => case.sizes.push(1.0),
        5 => case.sizes.truncate(n.saturating_sub(1 + r.below(2))),
        6 => {
            for _ in 0..1 + r.below(3) {
                if let Some(k) = some(r, n) {
                    case.points[3 * k + r.below(3)] = if r.one_in(4) { r.sign() * f64::MAX } else { r.pick(&BAD) };
                }
            }
        }
        7 => {
            for _ in 0..1 + r.below(3) {
                if let Some(k) = some(r, case.sizes.len()) {
                    case.sizes[k] = r.pick(&WEIGHTS);
                }
            }
        }
        8 => {
            for _ in 0..1 + r.below(3) {
                if let Some(k) = some(r, case.tris.len()) {
                    case.tris[k] = r.pick(&[n as u32, (n as u32).saturating_sub(1), n as u32 + 1, u32::MAX]);
                }
            }
        }
        9 => {
            let s = r.sign();
            case.options.holomorphic = if r.one_in(2) {
                s * r.near(1.0, 1)
            } else {
                s * r.pick(&BAD)
            };
        }
        10 => case.options.anisotropy = if r.one_in(5) { r.near(1.0, 2) } else { r.pick(&WEIGHTS) },
        11 => case.options.anisotropy_angle = r.pick(&[f64::NAN, f64::INFINITY, f64::NEG_INFINITY, f64::MAX]),
        12 => case.options.adaptive = r.pick(&WEIGHTS),
        13 => case.options.boundary = Boundary::Weak(r.pick(&WEIGHTS)),
        14 => guidance(case, n).weight = r.pick(&WEIGHTS),
        15 if r.one_in(2) => guidance(case, n).angle.push(0.0),
        15 => guidance(case, n).angle.truncate(n.saturating_sub(1 + r.below(2))),
        16 => {
            let bad = if r.one_in(4) { f64::MAX } else { r.pick(&BAD) };
            if let Some(k) = some(r, guidance(case, n).angle.len()) {
                guidance(case, n).angle[k] = bad;
            }
        }
        17 if r.one_in(2) => case.options.anisotropy_angle = r.sign() * r.near(131072.0, 1),
        17 => {
            for _ in 0..1 + r.below(2) {
                let angle = r.sign() * r.near(131072.0, 1);
                if let Some(k) = some(r, guidance(case, n).angle.len()) {
                    guidance(case, n).angle[k] = angle;
                }
            }
        }
        18 => {
            let k = r.below(4);
            case.spare[k] = if r.one_in(3) {
                -(case.needed()[k] as i64)
            } else {
                r.pick(&[-1, 0, 1])
            };
        }
        19..=24 => at_pass(r, case, row),
        _ => unreachable!(),
    }
}

/// Rows 19 to 24, which a pass refuses by.
fn at_pass(r: &mut Random, case: &mut Case, row: usize) {
    let (n, t) = (case.n(), case.triangles());
    if n == 0 || t == 0 || case.points.len() % 3 != 0 || case.tris.len() % 3 != 0 {
        return;
    }
    let k = 3 * r.below(t);
    match row {
        19 if r.one_in(3) => case.tris[k + 1] = case.tris[k],
        // a height of about 1e-14 of the base, of which twice the area is at the limit
        19 => {
            let [a, b, c] = [0, 1, 2].map(|i| 3 * case.tris[k + i] as usize);
            if [a, b, c].iter().all(|&v| v + 2 < case.points.len()) {
                let base = r.pick(&[1.0, 2.0, 1e-3]);
                case.points[a..a + 2].copy_from_slice(&[0.0, 0.0]);
                case.points[b..b + 2].copy_from_slice(&[base, 0.0]);
                let height = r.sign() * r.near(2e-14 * base, 3);
                case.points[c..c + 2].copy_from_slice(&[r.pick(&[0.0, base, 0.5 * base]), height]);
            }
        }
        20 if r.one_in(2) => {
            case.points.extend([r.between(-1.0, 2.0), r.between(-1.0, 2.0), 0.0]);
            case.sizes.push(1.0);
            if let Some(g) = &mut case.guidance {
                g.angle.push(0.5);
            }
        }
        20 => scale(r, case, 152.0, 154.3),
        21 => scale(r, case, -162.0, -153.0),
        22 => {
            let size = r.near_one(&[1.7e308, f64::MAX, f64::MAX / 2.0, 8.9e307], 1);
            case.sizes.iter_mut().for_each(|s| *s = size);
        }
        23 => {
            case.options.boundary = r.pick(&[
                Boundary::Tangent,
                Boundary::Weak(1.0),
                Boundary::Weak(0.0),
                Boundary::None,
            ]);
            case.tris.extend(case.tris.clone());
            if r.one_in(3) {
                case.tris.truncate(6 * t - 3);
            }
        }
        // a right-hand side whose squares are subnormal, so that conjugate gradient takes many turns
        24 if r.one_in(2) => {
            case.options.boundary = Boundary::None;
            case.options.holomorphic = r.pick(&[0.0, 1.0, -1.0]);
            let weight = r.scale(-163.0, -157.0);
            let angle = (0..n).map(|_| r.between(-1.0, 1.0)).collect();
            case.guidance = Some(Guidance { weight, angle });
            case.iterations = r.pick(&[1, 6001, 6001]);
        }
        _ => {
            case.options.boundary = if r.one_in(2) {
                Boundary::Weak(r.pick(&[5e-324, 1e-310, 1e-160, 1e300, f64::MAX]))
            } else {
                Boundary::None
            };
            if r.one_in(2) {
                let weight = r.pick(&[5e-324, 1e-310, 1e-160, 1e300, f64::MAX]);
                guidance(case, n).weight = weight;
            }
            case.iterations = r.pick(&[1, 2, 10, 6001]);
            case.options.holomorphic = r.pick(&[0.0, 1.0, -1.0]);
        }
    }
}

fn scale(r: &mut Random, case: &mut Case, low: f64, high: f64) {
    let by = r.scale(low, high);
    for p in case.points.chunks_exact_mut(3) {
        p[0] *= by;
        p[1] *= by;
    }
}
