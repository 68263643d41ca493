//! Systems for the linear algebra: matrices of small floors as the reference makes them, and random ones.
//!
//! A row of `systems` has 240 words: rows n, edges m, 0 for conjugate_gradient or 1 for normalize_in_mass, tolerance, count;
//! reason (0 where there is an iterate) and the iterations or the place; at word 8 the diagonal, at 24 the ends of each edge
//! (one times 2^32 and the other), at 64 and 104 the parts of the entries, at 144 and 160 those of the right-hand side or of the
//! vector, at 176 and 192 those of the iterate.

use crate::{
    case::{Boundary, Case, Guidance, Options},
    floors,
    random::Random,
    reference::{Pair, Reference, System},
    refusal,
    words::{word, List},
    PLATFORM,
};
use std::path::Path;

const ROWS: usize = 16;
const EDGES: usize = 40;

fn record_one(of: &Reference, list: &mut List, counts: &mut [usize; 10], s: &System, kind: u64) {
    let n = s.diagonal.len();
    let answer = if kind == 1 {
        (of.normalize_in_mass)(s).map(|x| (x, 0))
    } else {
        (of.conjugate_gradient)(s)
    };
    let mut row = vec![0u64; 208];
    row[..5].copy_from_slice(&[n as u64, s.ends.len() as u64, kind, word(s.tolerance), s.most as u64]);
    for i in 0..n {
        row[8 + i] = word(s.diagonal[i]);
        row[144 + i] = word(s.rhs[i][0]);
        row[160 + i] = word(s.rhs[i][1]);
    }
    for (e, &(a, b)) in s.ends.iter().enumerate() {
        row[24 + e] = ((a as u64) << 32) | b as u64;
        row[64 + e] = word(s.off[e][0]);
        row[104 + e] = word(s.off[e][1]);
    }
    match answer {
        Ok((x, count)) => {
            row[6] = count as u64;
            for i in 0..n {
                row[176 + i] = word(x[i][0]);
                row[192 + i] = word(x[i][1]);
            }
            counts[0] += 1;
        }
        Err(text) => {
            let refusal = refusal::of_message(&text, 1);
            row[5] = u64::from(refusal.reason);
            row[6] = refusal.place[0];
            counts[refusal.reason as usize] += 1;
        }
    }
    list.row(&row);
}

/// A grid of triangles, edges in the order first met.
fn grid(w: usize, h: usize) -> Vec<(usize, usize)> {
    let mut ends: Vec<(usize, usize)> = vec![];
    for j in 0..h - 1 {
        for i in 0..w - 1 {
            let (a, b, c, d) = (j * w + i, j * w + i + 1, (j + 1) * w + i + 1, (j + 1) * w + i);
            for (u, v) in [(a, b), (b, c), (a, c), (c, d), (a, d)] {
                let edge = (u.min(v), u.max(v));
                if !ends.contains(&edge) {
                    ends.push(edge);
                }
            }
        }
    }
    ends
}

fn random_ends(r: &mut Random, n: usize) -> Vec<(usize, usize)> {
    let m = r.below(EDGES + 1);
    if n < 2 {
        return vec![];
    }
    (0..m)
        .map(|_| {
            let a = r.below(n);
            let b = (a + 1 + r.below(n - 1)) % n;
            (a, b)
        })
        .collect()
}

/// Positive definite by a heavy diagonal, then spoilt as the kind asks.
fn system(r: &mut Random) -> System {
    let (n, ends) = if r.one_in(2) {
        let (w, h) = r.pick(&[(2, 2), (3, 2), (3, 3), (4, 3), (4, 4), (5, 3), (8, 2)]);
        (w * h, grid(w, h))
    } else {
        let n = 1 + r.below(ROWS);
        let ends = random_ends(r, n);
        (n, ends)
    };
    let scale = if r.one_in(3) { r.scale(-150.0, 150.0) } else { 1.0 };
    let off: Vec<Pair> = ends
        .iter()
        .map(|_| [scale * r.between(-1.0, 1.0), scale * r.between(-1.0, 1.0)])
        .collect();
    let slack = r.pick(&[1e-9, 1e-3, 0.1, 1.0]);
    let mut diagonal = vec![scale * slack; n];
    for (e, &(a, b)) in ends.iter().enumerate() {
        let size = off[e][0].hypot(off[e][1]);
        diagonal[a] += size;
        diagonal[b] += size;
    }
    let rhs = (0..n).map(|_| [r.between(-1.0, 1.0), r.between(-1.0, 1.0)]).collect();
    System {
        diagonal,
        ends,
        off,
        rhs,
        tolerance: r.pick(&[1e-6, 1e-10, 1e-13, 0.0]),
        most: 400 + 8 * n,
    }
}

/// The systems of a solve of a small floor, at most three of them.
fn floor(r: &mut Random) -> Vec<System> {
    let (w, h) = r.pick(&[(3usize, 3usize), (4, 3), (4, 4), (5, 3), (8, 2)]);
    let mut floor = floors::grid(w, h);
    for p in &mut floor.points {
        *p = [p[0] + r.between(-0.3, 0.3), p[1] + r.between(-0.3, 0.3), 0.0];
    }
    let sizes = floor
        .points
        .iter()
        .map(|p| 1.0 + 0.2 * p[0] + 0.1 * p[1] * p[1])
        .collect();
    let boundary = match r.below(4) {
        0 => Boundary::Tangent,
        1 => Boundary::Weak(r.pick(&[0.1, 1.0, 10.0])),
        _ => Boundary::None,
    };
    let options = Options {
        accurate: r.one_in(2),
        holomorphic: r.pick(&[0.0, 0.0, 0.5, -1.0, 1.0]),
        anisotropy: r.pick(&[1.0, 1.0, 2.0]),
        anisotropy_angle: 0.3,
        boundary,
        adaptive: 0.0,
    };
    let guidance = Guidance {
        weight: r.pick(&[0.0, 0.0, 0.5, 4.0]),
        angle: (0..w * h).map(|_| r.between(-1.0, 1.0)).collect(),
    };
    let case = Case {
        points: floor.points.concat(),
        tris: floor.tris.concat(),
        sizes,
        options,
        guidance: Some(guidance),
        iterations: 10,
        spare: [0; 4],
    };
    // the platform's functions: which they are is no matter to a system
    (PLATFORM.solve_keeping)(&case).1.systems.into_iter().take(3).collect()
}

pub fn record(of: &Reference, seed: u64, count: usize, folder: &Path) {
    let mut r = Random::new(seed);
    let mut list = List::new(folder, "systems", 240);
    let mut counts = [0; 10];
    let mut real = 0;
    while 2 * real < count {
        for s in floor(&mut r) {
            record_one(of, &mut list, &mut counts, &s, 0);
            record_one(of, &mut list, &mut counts, &s, 1);
            real += 1;
        }
    }
    for k in 0..count {
        let mut s = system(&mut r);
        let n = s.diagonal.len();
        let i = r.below(n);
        match k % 16 {
            0 => s.rhs = vec![[0.0, -0.0]; n],
            1 => s.rhs[i][r.below(2)] = r.pick(&[f64::NAN, f64::INFINITY, f64::NEG_INFINITY, 1e200]),
            2 => s.diagonal[i] = r.pick(&[0.0, -0.0, -1.0, f64::NAN, f64::INFINITY, f64::NEG_INFINITY]),
            // the inverse of a subnormal diagonal is infinite; a tiny right-hand side has a zero residual dot
            3 => s.diagonal[i] = r.pick(&[5e-324, 1e-310, 1e-300, f64::MAX]),
            4 => s.rhs.iter_mut().for_each(|z| *z = [z[0] * 1e-160, z[1] * 1e-160]),
            // not definite
            5 | 6 => s.diagonal.iter_mut().for_each(|d| *d *= r.pick(&[0.1, 0.3, 0.6, 0.9])),
            7 => {
                if let Some(z) = s.off.first_mut() {
                    *z = [r.pick(&[f64::NAN, f64::INFINITY, 1e300, -1e308]), z[1]];
                }
            }
            8 => s.most = 0,
            9 => s.most = 1,
            // exactly enough, and one too few
            10 | 11 => {
                let answer = (of.conjugate_gradient)(&s);
                if let Ok((_, count)) = answer {
                    s.most = if k % 16 == 10 { count } else { count - 1 };
                }
            }
            // a step that overflows or vanishes
            12 => s.tolerance = r.pick(&[f64::NAN, f64::INFINITY, 1.0, 1e-300, -1.0]),
            // a step that overflows beside entries of the product that are zero: a NaN residual, whose norm counts as 0
            13 => {
                let small = r.scale(-161.0, -155.0);
                s.diagonal = vec![1.0; 3];
                s.ends = vec![(0, 1)];
                s.off = vec![[-1.0, 0.0]];
                s.rhs = vec![[1.0, 0.0], [1.0, 0.0], [small, 0.0]];
            }
            _ => {}
        }
        record_one(of, &mut list, &mut counts, &s, 0);
        if k % 4 == 0 {
            // the mass of a vector, now and then negative, zero, not finite
            match r.below(6) {
                0 => s.rhs = vec![[0.0, 0.0]; n],
                1 => s.diagonal.iter_mut().for_each(|d| *d = -*d),
                2 => s.rhs[i][0] = r.pick(&[f64::NAN, f64::INFINITY, 1e200]),
                _ => {}
            }
            record_one(of, &mut list, &mut counts, &s, 1);
        }
    }
    println!(
        "{} rows, {real} systems of floors: {} with an iterate or a norm, and by reason 3 to 9: {:?}",
        list.rows,
        counts[0],
        &counts[3..]
    );
}
