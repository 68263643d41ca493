//! Records the reference's integrals, angles, geometry, probes and counts of singularities, over the proved leaves.
//! crates/replay_scalars replays the lists; data/README.md there says what a row holds.

use crate::random::Random;
use crate::reference::Reference;
use crate::words::{word, words, List};
use std::f64::consts::{FRAC_PI_2, FRAC_PI_4, PI, TAU};
use std::path::Path;

/// Holonomies: around the switch at 0.1, small, of any size, and any pattern.
fn omega(r: &mut Random) -> f64 {
    let s = r.sign();
    match r.below(8) {
        0 => s * r.near(0.1, 3),
        1 => s * r.between(0.0, 0.2),
        2 => s * r.scale(-20.0, -1.0),
        3 | 4 => r.between(-PI, PI),
        5 => s * r.near_one(&[0.0, PI, FRAC_PI_2], 3),
        6 => s * r.scale(-300.0, 6.0),
        _ => r.any(),
    }
}

/// A coordinate or a length: whole, of one size, of any size, or any pattern.
fn number(r: &mut Random) -> f64 {
    match r.below(6) {
        0 => r.below(9) as f64 - 4.0,
        1 | 2 => r.between(-1.0, 1.0),
        3 => r.sign() * r.scale(-8.0, 8.0),
        4 => r.sign() * r.scale(-300.0, 300.0),
        _ => r.any(),
    }
}

/// Holonomy, g11, g12 and g22 at which the series comes to another double where a term is grouped otherwise: `5 * (o2 / 1008)`, and
/// `7 * (o4 / 51840)`.
const GROUPED: [[f64; 4]; 2] = [
    [0.0646490602788875, 0.0, 2.828700136026081, 0.0],
    [0.05405729884985255, 0.0, 3.5484368891543774, 0.0],
];

fn integrals(of: &Reference, r: &mut Random, count: usize, folder: &Path) {
    let mut mass = List::new(folder, "mass", 3);
    let mut dirichlet = List::new(folder, "dirichlet", 6);
    let mut diagonal = List::new(folder, "diagonal", 10);
    for k in 0..count {
        let o = omega(r);
        let z = (of.mass_integral)(o);
        mass.row(&words(&[o, z[0], z[1]]));
        let drawn = [omega(r), number(r), number(r), number(r)];
        let [o, g @ ..] = GROUPED.get(k).copied().unwrap_or(drawn);
        let z = (of.dirichlet_integral)(o, g[0], g[1], g[2]);
        dirichlet.row(&words(&[o, g[0], g[1], g[2], z[0], z[1]]));
        let o = omega(r);
        let area = number(r);
        let p = [[number(r), number(r)], [number(r), number(r)], [number(r), number(r)]];
        let d = (of.dirichlet_diagonal)(o, area, p[0], p[1], p[2]);
        diagonal.row(&words(&[
            o, area, p[0][0], p[0][1], p[1][0], p[1][1], p[2][0], p[2][1], d,
        ]));
    }
}

fn angles(of: &Reference, r: &mut Random, count: usize, folder: &Path) {
    let mut cross = List::new(folder, "cross", 3);
    let mut wrap = List::new(folder, "wrap", 2);
    let mut weight = List::new(folder, "weight", 2);
    for _ in 0..count {
        let (re, im) = match r.below(6) {
            0 => (number(r), number(r)),
            1 => (r.sign() * r.unit(), r.sign() * r.scale(-320.0, -10.0)),
            2 => (r.pick(&[0.0, -0.0, 1.0, -1.0]), r.pick(&[0.0, -0.0, 1.0, -1.0])),
            3 => {
                let t = r.near_one(&[FRAC_PI_2, FRAC_PI_4, PI, 0.0], 4) * r.sign();
                (t.cos(), t.sin())
            }
            4 => (r.any(), r.any()),
            _ => {
                let t = r.between(-PI, PI);
                (t.cos(), t.sin())
            }
        };
        cross.row(&words(&[re, im, (of.cross_angle)(re, im)]));
        let x = match r.below(5) {
            0 => r.sign() * r.near_one(&[0.0, PI, 2.0 * PI, 3.0 * PI, FRAC_PI_2], 4),
            1 => r.between(-8.0 * PI, 8.0 * PI),
            2 => (r.below(2001) as f64 - 1000.0) * PI,
            3 => r.sign() * r.scale(-300.0, 20.0),
            _ => r.any(),
        };
        wrap.row(&words(&[x, (of.wrap_to_pi)(x)]));
        let a = match r.below(4) {
            0 => r.near(1.0, 6),
            1 => 1.0 + r.sign() * r.scale(-17.0, 0.0),
            2 => r.scale(-300.0, 300.0),
            _ => r.any(),
        };
        weight.row(&words(&[a, (of.anisotropy_alignment_weight)(a)]));
    }
}

/// Three corners: of one size, thin, with two at one point, tiny, huge, or any patterns.
fn corners(r: &mut Random) -> [[f64; 2]; 3] {
    let mut p = [[0.0; 2]; 3];
    let kind = r.below(8);
    let scale = if r.one_in(3) { r.scale(-170.0, 170.0) } else { 1.0 };
    for q in &mut p {
        *q = match kind {
            0..=3 => [r.between(-1.0, 1.0) * scale, r.between(-1.0, 1.0) * scale],
            4 => [(r.below(5) as f64) * scale, (r.below(5) as f64) * scale],
            5 => [r.between(-1.0, 1.0) * scale, r.sign() * r.scale(-18.0, -10.0) * scale],
            6 => [number(r), number(r)],
            _ => [r.any(), r.any()],
        };
    }
    if r.one_in(8) {
        p[r.below(3)] = p[r.below(3)];
    }
    p
}

fn geometry(of: &Reference, r: &mut Random, count: usize, folder: &Path) {
    let mut list = List::new(folder, "geometry", 15);
    let mut transport = List::new(folder, "transport", 15);
    for _ in 0..count {
        let p = corners(r);
        let sigma = [
            r.scale(-3.0, 3.0),
            r.scale(-3.0, 3.0),
            if r.one_in(9) { r.any() } else { 1.0 },
        ];
        let mut row = words(&[
            p[0][0], p[0][1], p[1][0], p[1][1], p[2][0], p[2][1], sigma[0], sigma[1], sigma[2],
        ]);
        match (of.triangle_geometry)(p) {
            Ok((vertices, q, area)) => {
                let g = (of.triangle_gradient)(q, sigma, area);
                row.extend([0, vertices[1] as u64, word(area), word(g[0]), word(g[1])]);
            }
            Err(text) => {
                assert!(text.starts_with("triangle 0 is degenerate"), "{text}");
                row.push(19);
            }
        }
        list.row(&row);
        let p = [[number(r), number(r)], [number(r), number(r)]];
        let size = match r.below(4) {
            0 => [1.0, 1.0],
            1 => [r.scale(-3.0, 3.0), r.scale(-3.0, 3.0)],
            2 => [
                r.pick(&[f64::MAX, 1.7e308, 5e-324, 1e-320]),
                r.pick(&[f64::MAX, 1e307, 5e-324]),
            ],
            _ => [r.any(), r.any()],
        };
        let g = [[number(r), number(r)], [number(r), number(r)]];
        let mut row = words(&[
            p[0][0], p[0][1], p[1][0], p[1][1], size[0], size[1], g[0][0], g[0][1], g[1][0], g[1][1],
        ]);
        match (of.transport_coefficient)(p, size, g) {
            Ok(z) => row.extend([0, word(z[0]), word(z[1])]),
            Err(text) => {
                assert!(text.starts_with("edge (0, 1) has non-positive average size"), "{text}");
                row.push(22);
            }
        }
        transport.row(&row);
    }
}

/// Numbers cut into threes; what is left over is dropped.
fn triples<T: Copy>(v: &[T]) -> Vec<[T; 3]> {
    v.chunks_exact(3).map(|c| [c[0], c[1], c[2]]).collect()
}

fn field_angle(r: &mut Random) -> f64 {
    match r.below(12) {
        0 => r.near_one(&[0.0, FRAC_PI_2, FRAC_PI_4], 2),
        1 => r.between(-8.0, 8.0),
        2 if r.one_in(3) => r.sign() * r.near(131072.0, 2),
        3 if r.one_in(6) => r.any(),
        _ => r.between(0.0, FRAC_PI_2),
    }
}

fn small_floor(r: &mut Random) -> (Vec<f64>, Vec<u32>) {
    let n = 3 + r.below(6);
    let mut points: Vec<f64> = Vec::new();
    for _ in 0..n {
        points.extend(match r.below(8) {
            0 => [number(r), number(r), r.any()],
            1..=3 => [r.below(4) as f64, r.below(4) as f64, 0.0],
            _ => [r.unit(), r.unit(), 0.0],
        });
    }
    let mut tris = Vec::new();
    for _ in 0..1 + r.below(6) {
        for _ in 0..3 {
            tris.push(if r.one_in(40) {
                r.bits() as u32
            } else {
                r.below(n) as u32
            });
        }
    }
    (points, tris)
}

/// Probes of one triangle, with a corner at the origin and one on either axis, that meet a limit: the length of both sides, three angles,
/// the question point. A weight of exactly -1e-12 and of 1 + 1e-12, and of the next double beyond; a denominator of exactly MIN_POSITIVE,
/// and of the next; a sum whose real part is 0 and whose imaginary part is not.
fn met_exactly() -> [([f64; 2], [f64; 3], [f64; 2]); 7] {
    let (unit, angles) = ([1.0, 1.0], [0.1, 0.2, 0.3]);
    let small = 2f64.powi(-511);
    [
        (unit, angles, [0.5, -1e-12]),
        (unit, angles, [0.5, -1.0000000000000002e-12]),
        (unit, angles, [-5e-13, -4.9994e-13]),
        (unit, angles, [-5e-13, -5.001600000000001e-13]),
        ([small, small], angles, [0.25 * small, 0.25 * small]),
        (
            [small, small * (1.0 + f64::EPSILON)],
            angles,
            [0.25 * small, 0.25 * small],
        ),
        (unit, [0.0, FRAC_PI_4, 0.0], [0.5, 0.0]),
    ]
}

fn probes(of: &Reference, r: &mut Random, count: usize, folder: &Path) {
    let mut list = List::new(folder, "probe", 64);
    let known = met_exactly();
    for k in 0..count {
        let (mut points, mut tris) = small_floor(r);
        let mut alpha: Vec<f64> = (0..points.len() / 3).map(|_| field_angle(r)).collect();
        match r.below(30) {
            0 => points.truncate(points.len() - 1 - r.below(2)),
            1 => tris.truncate(tris.len() - 1 - r.below(2)),
            2 => alpha.truncate(alpha.len() - 1),
            3 => tris.clear(),
            4 => {
                points.clear();
                alpha.clear();
            }
            _ => {}
        }
        let corner = |k: usize, points: &[f64], tris: &[u32]| -> [f64; 2] {
            let v = tris.get(k).map_or(0, |&v| v as usize);
            [
                points.get(3 * v).copied().unwrap_or(0.0),
                points.get(3 * v + 1).copied().unwrap_or(0.0),
            ]
        };
        let mut at = match r.below(8) {
            0 => corner(r.below(3), &points, &tris),
            1 => {
                let (a, b) = (corner(0, &points, &tris), corner(1, &points, &tris));
                [0.5 * (a[0] + b[0]), 0.5 * (a[1] + b[1])]
            }
            2 => [r.any(), r.any()],
            3 => [r.below(4) as f64, r.below(4) as f64],
            4 => [r.between(-1.0, 2.0), r.between(-1.0, 2.0)],
            _ => {
                let (a, b, c) = (
                    corner(0, &points, &tris),
                    corner(1, &points, &tris),
                    corner(2, &points, &tris),
                );
                let (u, v) = (r.unit(), r.unit());
                [
                    a[0] + 0.6 * u * (b[0] - a[0]) + 0.4 * v * (c[0] - a[0]),
                    a[1] + 0.6 * u * (b[1] - a[1]) + 0.4 * v * (c[1] - a[1]),
                ]
            }
        };
        if let Some(([x, y], angles, point)) = known.get(k) {
            points = vec![0.0, 0.0, 0.0, *x, 0.0, 0.0, 0.0, *y, 0.0];
            (tris, alpha, at) = (vec![0, 1, 2], angles.to_vec(), *point);
        }
        // 1 not of whole triples, 2 no angle, 3 angle too large, 4 the angle
        let whole = points.len() % 3 == 0 && tris.len() % 3 == 0;
        let (kind, angle) = if !whole {
            (1, 0.0)
        } else {
            let floor: Vec<[usize; 3]> = triples(&tris).iter().map(|t| t.map(|v| v as usize)).collect();
            let fits = alpha.len() == points.len() / 3 && alpha.iter().all(|a| a.is_finite());
            if fits && alpha.iter().any(|a| a.abs() > 131072.0) {
                (3, 0.0)
            } else {
                let a = (of.interp_angle)(&alpha, &triples(&points), &floor, at);
                if a.is_nan() {
                    (2, 0.0)
                } else {
                    (4, a)
                }
            }
        };
        let mut row = vec![
            alpha.len() as u64,
            points.len() as u64,
            tris.len() as u64,
            word(at[0]),
            word(at[1]),
            kind,
            word(angle),
        ];
        row.extend(words(&alpha));
        row.resize(15, 0);
        row.extend(words(&points));
        row.resize(39, 0);
        row.extend(tris.iter().map(|&v| u64::from(v)));
        list.row(&row);
    }
}

fn singularities(of: &Reference, r: &mut Random, count: usize, folder: &Path) {
    let mut list = List::new(folder, "singular", 32);
    for _ in 0..count {
        let (_, mut tris) = small_floor(r);
        let huge = r.one_in(4);
        let alpha: Vec<f64> = (0..3 + r.below(6))
            .map(|_| match r.below(9) {
                0 if r.one_in(3) => r.any(),
                1 => r.pick(&[0.0, 0.5, 1.0]),
                2 if huge => r.sign() * r.scale(15.0, 18.0),
                _ if huge => r.sign() * r.between(2e16, 4e16),
                _ => r.between(0.0, FRAC_PI_2),
            })
            .collect();
        // differences that are exact multiples of TAU, so large that adding PI is absorbed: each turn wraps to PI itself, and
        // the charge is 2. Some corners are a unit off
        let mut alpha = alpha;
        if r.one_in(6) {
            let unit = TAU * (1u64 << (52 + r.below(3))) as f64 * r.sign();
            for a in &mut alpha {
                *a = r.below(4) as f64 * unit;
                if r.one_in(8) {
                    *a = r.near(*a, 1);
                }
            }
        }
        if r.one_in(20) {
            tris.truncate(tris.len() - 1 - r.below(2));
        }
        let mut row = vec![alpha.len() as u64, tris.len() as u64];
        if tris.len() % 3 != 0 {
            row.extend([1, 0, 0]);
        } else {
            let floor: Vec<[usize; 3]> = triples(&tris).iter().map(|t| t.map(|v| v as usize)).collect();
            let (threes, fives) = (of.count_singularities)(&alpha, &floor);
            row.extend([0, threes as u64, fives as u64]);
        }
        row.extend(words(&alpha));
        row.resize(13, 0);
        row.extend(tris.iter().map(|&v| u64::from(v)));
        list.row(&row);
    }
}

/// Writes every list of the scalars into a folder, `count` rows each.
pub fn record(of: &Reference, seed: u64, count: usize, folder: &Path) {
    let mut r = Random::new(seed);
    integrals(of, &mut r, count, folder);
    angles(of, &mut r, count, folder);
    geometry(of, &mut r, count, folder);
    probes(of, &mut r, count, folder);
    singularities(of, &mut r, count, folder);
}
