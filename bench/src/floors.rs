//! The floors that are timed: bent unit squares of 33 by 33, 65 by 65 and 128 by 128 points, of three kinds, with constant, graded and
//! wavy sizes, and no boundary mode, tangent or weak. Points are numbered row by row in all kinds.

use crate::triangulation::{make_delaunay, turn_some};
use oracle::{
    case::{Boundary, Case, DEFAULT},
    floors::{self, Floor},
    random::Random,
};

/// How a floor is triangulated.
#[derive(Clone, Copy, PartialEq, Eq)]
pub enum Kind {
    /// Two triangles a cell, all diagonals alike.
    Grid,
    /// The same points, each cell's diagonal chosen at random.
    Diagonals,
    /// Jittered points and their Delaunay triangulation.
    Delaunay,
}

impl Kind {
    pub const ALL: [Kind; 3] = [Kind::Grid, Kind::Diagonals, Kind::Delaunay];

    pub fn name(self) -> &'static str {
        match self {
            Kind::Grid => "grid",
            Kind::Diagonals => "diagonals",
            Kind::Delaunay => "delaunay",
        }
    }
}

pub const SIDES: [usize; 3] = [33, 65, 128];
pub const SIZES: [&str; 3] = ["constant", "graded", "wavy"];
pub const MODES: [(&str, Boundary); 3] = [
    ("none", Boundary::None),
    ("tangent", Boundary::Tangent),
    ("weak", Boundary::Weak(1.0)),
];

/// Of all that is random in a floor.
const SEED: u64 = 20261115;
/// How far a point of a Delaunay floor is moved in x and in y at most, in cells. Below a half no two edges of the grid cross, so that
/// each cell still has a diagonal inside it.
const JITTER: f64 = 0.4;

/// Moves points whose coordinates are whole numbers, if the kind does. A coordinate that is `fixed` stays.
fn jitter(kind: Kind, points: &mut [[f64; 3]], fixed: impl Fn(f64) -> bool) {
    if kind != Kind::Delaunay {
        return;
    }
    let mut r = Random::new(SEED);
    for p in points {
        for x in &mut p[..2] {
            let by = r.between(-JITTER, JITTER);
            if !fixed(*x) {
                *x += by;
            }
        }
    }
}

/// Changes a grid's triangles into those of the kind. `vector` leads from one point to another.
fn triangulate(kind: Kind, tris: &mut [[u32; 3]], vector: impl Fn(u32, u32) -> [f64; 2]) {
    match kind {
        Kind::Grid => {}
        Kind::Diagonals => turn_some(tris, Random::new(SEED)),
        Kind::Delaunay => make_delaunay(tris, vector),
    }
}

fn difference(points: &[[f64; 3]], a: u32, b: u32) -> [f64; 2] {
    let (p, q) = (points[a as usize], points[b as usize]);
    [q[0] - p[0], q[1] - p[1]]
}

/// A unit square, its points moved a little, so that neither its boundary nor its field is straight. Jitter leaves the points of the
/// boundary on it.
pub fn square(kind: Kind, side: usize) -> Floor {
    let Floor { mut points, mut tris } = floors::grid(side, side);
    let last = (side - 1) as f64;
    jitter(kind, &mut points, |x| x == 0.0 || x == last);
    for p in &mut points {
        let (x, y) = (p[0] / last, p[1] / last);
        *p = [x + 0.05 * (6.0 * y).sin(), y + 0.05 * (5.0 * x).sin(), 0.0];
    }
    triangulate(kind, &mut tris, |a, b| difference(&points, a, b));
    Floor { points, tris }
}

/// A floor without boundary: a grid whose last row and column go on in the first. What is Delaunay is the torus, where a vector goes the
/// short way round.
fn torus(kind: Kind, side: usize) -> Floor {
    let Floor { mut points, mut tris } = floors::wrapped(side, side);
    let around = side as f64;
    jitter(kind, &mut points, |_| false);
    triangulate(kind, &mut tris, |a, b| {
        difference(&points, a, b).map(|d| d - around * (d / around).round())
    });
    Floor { points, tris }
}

/// A call on the square of a kind.
pub fn case(kind: Kind, side: usize, sizes: &str, boundary: Boundary, threshold: f64) -> Case {
    let floor = square(kind, side);
    let size = |p: &[f64; 3]| match sizes {
        "constant" => 1.0,
        "graded" => 1.0 + 2.0 * p[0] + p[1] * p[1],
        _ => 1.5 + 0.1 * (7.0 * p[0]).sin() * (5.0 * p[1]).cos(),
    };
    Case {
        sizes: floor.points.iter().map(size).collect(),
        points: floor.points.concat(),
        tris: floor.tris.concat(),
        options: oracle::case::Options {
            boundary,
            adaptive: threshold,
            ..DEFAULT
        },
        guidance: None,
        iterations: 100,
        spare: [0; 4],
    }
}

/// A tangent call on the torus of a kind, with the sizes of the square.
pub fn closed(kind: Kind, side: usize) -> Case {
    let floor = torus(kind, side);
    Case {
        points: floor.points.concat(),
        tris: floor.tris.concat(),
        ..case(kind, side, "wavy", Boundary::Tangent, 0.0)
    }
}

/// A threshold that flags some triangles: a triangle of a finer floor turns less.
pub fn turning(side: usize) -> f64 {
    0.2 / side as f64
}

/// A floor of n points and these triangles, for refinement, which asks nothing of where the points are.
fn listed(n: usize, tris: Vec<[u32; 3]>) -> Case {
    let at = |i: usize| [(i % 128) as f64, (i / 128) as f64, 0.0];
    Case {
        points: (0..n).map(at).collect::<Vec<_>>().concat(),
        sizes: vec![1.0; n],
        tris: tris.concat(),
        ..case(Kind::Grid, 2, "constant", Boundary::None, 0.0)
    }
}

/// Angles that differ along every edge.
pub fn turns(n: usize) -> Vec<f64> {
    (0..n).map(|i| (i * 7919 % 16381) as f64 * 4.8e-5).collect()
}

/// Triangles of two sides each in one of 64 of 65,536 buckets, where a bucket is the upper digits of a multiple of both ends.
fn crowded() -> Vec<[u32; 3]> {
    let slot =
        |a: u32, b: u32| (u64::from(a.wrapping_mul(1640531527).wrapping_add(b.wrapping_mul(1172981867))) * 65536) >> 32;
    let mut tris = vec![];
    for a in 0..16384 {
        let near: Vec<u32> = (a + 1..16384).filter(|&b| slot(a, b) < 64).collect();
        tris.extend(near.chunks_exact(2).map(|b| [a, b[0], b[1]]));
    }
    tris.truncate(32768);
    tris
}

/// Floors on which a table of edges may be slow: a name, the floor, and how often it is refined for one time.
pub fn special() -> Vec<(&'static str, Case, usize)> {
    let last = 16383;
    vec![
        ("one triangle", listed(3, vec![[0, 1, 2]]), 1000),
        (
            "fan around the first point",
            listed(16384, (1..last).map(|i| [0, i, i + 1]).collect()),
            1,
        ),
        (
            "fan around the last point",
            listed(16384, (0..last - 1).map(|i| [i, i + 1, last]).collect()),
            1,
        ),
        ("sides of few buckets", listed(16384, crowded()), 1),
    ]
}
