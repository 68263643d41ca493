//! The Rust crate's module simons_godf beside the reference: the same calls, as a program that replaced one with the other makes them.

use bench::{
    floors::{case, turning},
    time::{seconds, Table, MICROSECONDS, MILLISECONDS},
    words::Asked,
};
use godf::simons_godf::{self, BoundaryMode, Options};
use oracle::{
    case::Boundary,
    outcome::{same, same_angles},
    random::Random,
    BOUND, PLATFORM,
};

/// 12,321 points.
const SIDES: [usize; 1] = [111];
/// The field turns by less on every triangle: a solve with this threshold has one pass.
const UNREACHED: f64 = 1.0;
const PROBES: usize = 20;

/// Tangent solves without a threshold, with one that no triangle reaches, so that the second pass's memory is needed and not used, and with
/// one that some triangles exceed.
pub fn solve(asked: &Asked) {
    let title = "Drop-in: godf::simons_godf::solve_with_options beside the reference's";
    let mut table = Table::new(title, MILLISECONDS, asked.rounds);
    for (kind, side) in asked.floors_or(&SIDES) {
        for threshold in [0.0, UNREACHED, turning(side)] {
            let c = case(kind, side, "wavy", Boundary::Tangent, threshold);
            let (points, tris) = (c.triples(), c.corners());
            let options = Options {
                boundary: BoundaryMode::Tangent,
                adaptive: threshold,
                ..Options::default()
            };
            let iterations = c.iterations as usize;
            let ours = || simons_godf::solve_with_options(&points, &tris, &c.sizes, &options, iterations);
            let (wanted, seen) = (BOUND.solve)(&c);
            let wanted = wanted.expect("a field");
            let flagged = seen.counts.map_or(0, |counts| counts.0);
            assert!(same_angles(&ours().expect("a field"), &wanted), "a field that differs");
            let name = format!("{side} by {side}, threshold {threshold:.4}: {flagged} flagged");
            let theirs = || seconds(|| (PLATFORM.solve)(&c));
            table.row(kind.name(), &name, 1, || seconds(ours), theirs);
        }
    }
    table.end();
}

pub fn probe(asked: &Asked) {
    let title = "Drop-in: godf::simons_godf::interp_angle beside the reference's, a question";
    let mut table = Table::new(title, MICROSECONDS, asked.rounds);
    for (kind, side) in asked.floors_or(&SIDES) {
        let c = case(kind, side, "wavy", Boundary::Tangent, 0.0);
        let alpha = (PLATFORM.pass)(&c).expect("a field");
        let (points, tris) = (c.triples(), c.corners());
        let mut r = Random::new(side as u64);
        let at: Vec<[f64; 2]> = (0..PROBES)
            .map(|_| [r.between(0.1, 0.9), r.between(0.1, 0.9)])
            .collect();
        let ours = |p: &[f64; 2]| simons_godf::interp_angle(&alpha, &points, &tris, *p);
        for p in &at {
            let wanted = (BOUND.interp_angle)(&alpha, &points, &tris, *p);
            assert!(same(ours(p), wanted), "a probe that differs");
        }
        let theirs = |p: &[f64; 2]| (PLATFORM.interp_angle)(&alpha, &points, &tris, *p);
        let sum = |probe: &dyn Fn(&[f64; 2]) -> f64| seconds(|| at.iter().map(probe).sum::<f64>());
        table.row(
            kind.name(),
            &format!("{side} by {side}"),
            PROBES,
            || sum(&ours),
            || sum(&theirs),
        );
    }
    table.end();
}
