//! Whole calls: a floor with sizes, options, guidance, a count of iterations, a threshold that flags none, some or all triangles, and
//! lent slices. One call in four is then put at a row of document 01's table, just inside or just outside of it (rows.rs), and one in
//! sixteen is at the ends of the format (reasons.rs).

use crate::{
    case::{Boundary, Case, Guidance, Options},
    floors::{self, Floor},
    random::Random,
    reasons, rows, BOUND,
};
use std::f64::consts::FRAC_PI_4;

/// Sizes of one kind: constant, graded, wavy, random, far apart, at the ends of the format.
fn sizes(r: &mut Random, points: &[[f64; 3]]) -> Vec<f64> {
    let least = |i: usize| points.iter().fold(f64::MAX, |x, p| p[i].min(x));
    let most = |i: usize| points.iter().fold(f64::MIN, |x, p| p[i].max(x));
    let unit = |p: &[f64; 3], i: usize| (p[i] - least(i)) / (most(i) - least(i)).max(1e-3);
    let (a, b) = (r.between(0.0, 3.0), r.between(0.0, 3.0));
    let kind = r.below(8);
    let constant = if r.one_in(2) { 1.0 } else { r.scale(-3.0, 3.0) };
    let end = r.scale(-300.0, 300.0);
    points
        .iter()
        .map(|p| {
            let (x, y) = (unit(p, 0), unit(p, 1));
            match kind {
                0 | 1 => constant,
                2 | 3 => 1.0 + a * x + b * y * y,
                4 => 1.2 + (4.0 * a * x).sin() * (4.0 * b * y).cos(),
                5 => r.scale(-1.0, 1.0),
                6 => r.scale(-6.0, 6.0),
                _ => end * (1.0 + a * x),
            }
        })
        .collect()
}

fn options(r: &mut Random) -> Options {
    Options {
        accurate: r.one_in(2),
        holomorphic: match r.below(4) {
            0 => r.pick(&[0.5, -1.0, 1.0, -0.25, 1e-9, -0.0]),
            1 => r.between(-1.0, 1.0),
            _ => 0.0,
        },
        anisotropy: match r.below(8) {
            0 => r.pick(&[2.0, 0.5, 4.0]),
            1 => r.scale(-3.0, 3.0),
            2 => r.near(1.0, 3) + r.pick(&[0.0, 1e-8, -2e-8, 1e-7]),
            _ => 1.0,
        },
        anisotropy_angle: if r.one_in(3) { r.between(-4.0, 4.0) } else { 0.0 },
        boundary: match r.below(6) {
            0 | 1 => Boundary::Tangent,
            2 => Boundary::Weak(r.pick(&[0.1, 1.0, 10.0, 1e6, 0.0])),
            3 => Boundary::Weak(r.scale(-12.0, 12.0)),
            _ => Boundary::None,
        },
        adaptive: 0.0,
    }
}

fn guidance(r: &mut Random, points: &[[f64; 3]]) -> Option<Guidance> {
    if r.one_in(2) {
        return None;
    }
    let kind = r.below(5);
    let base = r.between(-2.0, 2.0);
    let angle = points.iter().map(|p| match kind {
        0 => base,
        1 => base + 0.3 * p[0] - 0.2 * p[1],
        // fourfold directions that all but cancel at midpoints
        2 => base + r.pick(&[0.0, FRAC_PI_4]),
        3 => r.between(-131072.0, 131072.0),
        _ => r.between(-1.0, 1.0),
    });
    let angle = angle.collect();
    let weight = match r.below(4) {
        0 => 0.0,
        1 => r.scale(-12.0, 12.0),
        _ => r.pick(&[0.5, 4.0, 100.0]),
    };
    Some(Guidance { weight, angle })
}

/// A threshold by what the first pass turns: met exactly, a pattern to either side, between, below all or above all.
fn threshold(r: &mut Random, case: &Case) -> f64 {
    let Ok(alpha) = (BOUND.pass)(case) else {
        return r.pick(&[0.0, 0.1]);
    };
    let corners = case.corners();
    let turn = (BOUND.triangle_field_variation)(&alpha, &corners[r.below(corners.len())]);
    match r.below(8) {
        0 => turn,
        1 => r.near(turn.max(1e-300), 1),
        2 | 3 => turn * r.between(0.3, 0.99),
        4 => r.pick(&[5e-324, 1e-12, 1e-6]),
        5 => r.pick(&[1.0, FRAC_PI_4, f64::MAX]),
        _ => r.between(0.0, 0.4),
    }
}

fn around(r: &mut Random, floor: Floor, before: &[[f64; 3]]) -> Case {
    let mut case = Case {
        sizes: sizes(r, before),
        guidance: guidance(r, before),
        points: floor.points.concat(),
        tris: floor.tris.concat(),
        options: options(r),
        iterations: r.pick(&[1, 2, 5, 10, 20, 50, 50, 100, 100]),
        spare: [0; 4],
    };
    if case.bounded() && r.one_in(4) {
        case.iterations = r.pick(&[1000, 5999, 6001, u64::MAX]);
    }
    if r.one_in(2) {
        case.options.adaptive = threshold(r, &case);
    }
    if r.one_in(3) {
        case.spare = [0; 4].map(|_: i64| r.below(9) as i64);
    }
    case
}

/// The call number i of a seed, of about 30 points at most.
pub fn nth(seed: u64, i: u64) -> Case {
    if i % 16 == 6 {
        return reasons::nth(seed, i);
    }
    let mut r = Random::new(
        seed.wrapping_mul(0x1_0000_0001)
            .wrapping_add(i.wrapping_mul(0x9e37_79b9)),
    );
    let most = if r.one_in(8) { 60 } else { 24 };
    let (floor, before) = floors::floor(&mut r, most);
    let mut case = around(&mut r, floor, &before);
    if i % 4 == 3 {
        rows::put(&mut r, &mut case);
    }
    if !case.bounded() {
        case.iterations = case.iterations.min(100);
    }
    case
}

/// A large call: 1,000 to 16,384 points, one in four with 32,768 triangles too, so that both of row 1's limits are met. Held by its
/// boundary or by guidance, so that conjugate gradient ends soon.
pub fn large(seed: u64, i: u64) -> Case {
    let mut r = Random::new(seed.wrapping_mul(0x2_0000_0001).wrapping_add(i));
    let floor = match i % 4 {
        0 => floors::wrapped(128, 128),
        1 => floors::grid(33, 33),
        2 => floors::disk(20, 60, true),
        _ => floors::grid(65, 65),
    };
    let before = floor.points.clone();
    let mut case = around(&mut r, floor, &before);
    if i % 4 == 0 {
        case.options.boundary = Boundary::None;
    }
    if i % 4 != 0 && r.one_in(2) {
        case.options.boundary = Boundary::Tangent;
        case.guidance = None;
    } else {
        let angle = before.iter().map(|p| 0.05 * p[0] - 0.03 * p[1]).collect();
        let weight = r.pick(&[10.0, 100.0]);
        case.guidance = Some(Guidance { weight, angle });
    }
    case.options.adaptive = if i % 8 == 4 { 0.02 } else { r.pick(&[0.0, 0.02, 0.2]) };
    case
}
