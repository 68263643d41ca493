//! An iteration of conjugate gradient beside the Rust's on random systems over the edges of the floors (bench/linear/run). Each system
//! is first solved by both, and the iterates are compared bit by bit.

use bench::{
    floors::{square, Kind},
    systems::iteration,
    time::{Table, MICROSECONDS},
    words::Asked,
};
use oracle::{random::Random, reference::System};
use std::collections::HashSet;

const SEED: u64 = 20261115;
const TOLERANCE: f64 = 1e-10;
const MOST: usize = 6000;
/// Where the command names no count of rounds.
const ROUNDS: usize = 1000;
/// How many iterations are timed at once: few, so that some rounds are undisturbed.
const TURNS: usize = 10;
/// How far each diagonal entry is above the sum of its row.
const ABOVE: f64 = 0.001;

/// A floor's edges, lower end first, in the order first met.
fn edges(tris: &[[u32; 3]]) -> Vec<(usize, usize)> {
    let sides = tris.iter().flat_map(|&[a, b, c]| [(a, b), (b, c), (c, a)]);
    let sides = sides.map(|(u, v)| (u.min(v) as usize, u.max(v) as usize));
    let mut seen = HashSet::new();
    sides.filter(|&edge| seen.insert(edge)).collect()
}

/// A random system whose diagonal dominates.
fn system(kind: Kind, side: usize) -> System {
    let mut r = Random::new(SEED);
    let ends = edges(&square(kind, side).tris);
    let off: Vec<[f64; 2]> = ends
        .iter()
        .map(|_| [r.between(-0.9, 0.1), r.between(-0.2, 0.2)])
        .collect();
    let mut diagonal = vec![ABOVE; side * side];
    for (&(a, b), z) in ends.iter().zip(&off) {
        let size = z[0].hypot(z[1]);
        diagonal[a] += size;
        diagonal[b] += size;
    }
    let rhs = diagonal
        .iter()
        .map(|_| [r.between(-0.5, 0.5), r.between(-0.5, 0.5)])
        .collect();
    System {
        diagonal,
        ends,
        off,
        rhs,
        tolerance: TOLERANCE,
        most: MOST,
    }
}

fn main() {
    let asked = Asked::read(ROUNDS, &[]);
    let title = "Random systems: one iteration of conjugate gradient";
    let mut table = Table::new(title, MICROSECONDS, asked.rounds);
    for (kind, side) in asked.floors() {
        let s = system(kind, side);
        let name = format!("{side} by {side}, {} edges", s.ends.len());
        iteration(&mut table, kind.name(), &name, &s, TURNS);
    }
    table.end();
}
