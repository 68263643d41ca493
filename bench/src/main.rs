//! Times ours beside the reference, over its platform's own functions, on the same floors and in one run (bench/run).

mod dropin;
mod linear;

use bench::{
    floors::{case, closed, special, turning, turns, Kind},
    time::{seconds, Table, MICROSECONDS, MILLISECONDS},
    words::Asked,
};
use oracle::{
    candidates::Godf,
    case::{Boundary, Case},
    compare::against,
    godf,
    outcome::{expected, same, Answer},
    random::Random,
    refine_call::as_told,
    BOUND, PLATFORM,
};

/// A call and its field, by the reference: wavy sizes, tangent.
fn field(kind: Kind, side: usize) -> (Case, Vec<f64>) {
    let c = case(kind, side, "wavy", Boundary::Tangent, 0.0);
    let alpha = (PLATFORM.pass)(&c).expect("a field");
    (c, alpha)
}

/// A row for one refinement, the lent slices touched before. Bits are compared first.
fn refine(table: &mut Table, kind: &str, name: &str, c: &Case, alpha: &[f64], threshold: f64, times: usize) {
    let (points, tris) = (c.triples(), c.corners());
    let mut lent = godf::lent(c.n(), c.triangles(), 0);
    godf::refine(&mut lent, &c.points, &c.tris, &c.sizes, alpha, threshold);
    let want = (BOUND.refine_once)(&points, &tris, &c.sizes, alpha, threshold);
    let flagged = want.3;
    assert!(as_told(&lent, want), "{kind}, {name} differs");
    let name = format!("{name}: {flagged} of {} triangles flagged", tris.len());
    let ours = || {
        seconds(|| {
            for _ in 0..times {
                godf::refine(&mut lent, &c.points, &c.tris, &c.sizes, alpha, threshold);
            }
        })
    };
    let theirs = || {
        seconds(|| {
            for _ in 0..times {
                std::hint::black_box((PLATFORM.refine_once)(&points, &tris, &c.sizes, alpha, threshold));
            }
        })
    };
    table.row(kind, &name, times, ours, theirs);
}

fn refinement(asked: &Asked) {
    let title = "Refinement: godf_refine beside refine_once";
    let mut table = Table::new(title, MILLISECONDS, asked.rounds);
    for (kind, side) in asked.floors() {
        let (c, alpha) = field(kind, side);
        for threshold in [0.0, 5.0 * turning(side), 1.0] {
            let name = format!("{side} by {side}, wavy, tangent, threshold {threshold:.4}");
            refine(&mut table, kind.name(), &name, &c, &alpha, threshold, 1);
        }
        // every triangle is flagged: at 128 by 128 points these are as many as row 1 allows
        let c = closed(kind, side);
        let name = format!("{side} by {side} going round");
        refine(&mut table, kind.name(), &name, &c, &turns(c.n()), 0.0, 1);
    }
    for (name, c, times) in special() {
        refine(&mut table, "special", name, &c, &turns(c.n()), 0.0, times);
    }
    table.end();
}

fn probe(asked: &Asked) {
    let title = "Probe: godf_interp_angle beside interp_angle, a question";
    let mut table = Table::new(title, MICROSECONDS, asked.rounds);
    for (kind, side) in asked.floors() {
        let (c, alpha) = field(kind, side);
        let (points, tris) = (c.triples(), c.corners());
        let mut r = Random::new(side as u64);
        let at: Vec<[f64; 2]> = (0..20).map(|_| [r.between(0.1, 0.9), r.between(0.1, 0.9)]).collect();
        // the platform's leaves differ in the last place now and then, so ours is compared with the reference over our leaves
        let differ = at.iter().filter(|&&p| {
            let ours = godf::interp_angle(&alpha, &c.points, &c.tris, p);
            !same(ours, (BOUND.interp_angle)(&alpha, &points, &tris, p))
        });
        assert_eq!(differ.count(), 0, "probes that differ");
        let ours = || {
            let probe = |&p: &[f64; 2]| godf::interp_angle(&alpha, &c.points, &c.tris, p);
            seconds(|| at.iter().map(probe).sum::<f64>())
        };
        let theirs = || {
            let probe = |&p: &[f64; 2]| (PLATFORM.interp_angle)(&alpha, &points, &tris, p);
            seconds(|| at.iter().map(probe).sum::<f64>())
        };
        table.row(kind.name(), &format!("{side} by {side}"), at.len(), ours, theirs);
    }
    table.end();
}

fn singularities(asked: &Asked) {
    let title = "Singularities: godf_count_singularities beside count_singularities";
    let mut table = Table::new(title, MICROSECONDS, asked.rounds);
    for (kind, side) in asked.floors() {
        let (c, alpha) = field(kind, side);
        let tris = c.corners();
        let counts = godf::count_singularities(&alpha, &c.tris);
        assert_eq!(counts, (PLATFORM.count_singularities)(&alpha, &tris), "singularities");
        let ours = || seconds(|| godf::count_singularities(&alpha, &c.tris));
        let theirs = || seconds(|| (PLATFORM.count_singularities)(&alpha, &tris));
        let name = format!("{side} by {side}: {counts:?}");
        table.row(kind.name(), &name, 1, ours, theirs);
    }
    table.end();
}

/// What a call comes to, in words. It must come to this row: 0 where it is accepted.
fn told(name: &str, answer: Answer, row: u32) -> String {
    let (number, words) = match answer {
        Answer::Accepted { flagged: 0, .. } => (0, String::new()),
        Answer::Accepted { flagged, cut } => (0, format!(": {flagged} flagged, {cut} cut")),
        Answer::Refused(r) => {
            let words = format!(": refused by row {}, pass {}, reason {}", r.number, r.pass, r.reason);
            (r.number, words)
        }
    };
    assert_eq!(number, row, "{name}{words}");
    words
}

/// A row for one call that comes to this row, the lent slices touched before. Bits are compared first, with the reference over our
/// leaves.
fn beside(table: &mut Table, kind: &str, name: &str, c: &Case, row: u32, theirs: impl Fn(&Case)) {
    let want = expected(BOUND, c);
    let differences = against(&Godf, c, &want);
    assert!(
        differences.is_empty(),
        "{kind}, {name} differs in {}",
        differences.join(", ")
    );
    let words = told(name, want.answer, row);
    let mut lent = godf::Lent::to(c);
    let ours = || seconds(|| godf::solve(c, &mut lent));
    table.row(kind, &format!("{name}{words}"), 1, ours, || seconds(|| theirs(c)));
}

fn reference_pass(c: &Case) {
    let _ = std::hint::black_box((PLATFORM.pass)(c));
}

fn reference_solve(c: &Case) {
    let _ = std::hint::black_box((PLATFORM.solve)(c));
}

/// Tangent calls on closed floors, which row 23 refuses: all of a pass but its branch, on both sides.
fn setup(asked: &Asked) {
    let title = "Set-up of a pass: godf_solve beside solve_mesh, refused by row 23";
    let mut table = Table::new(title, MILLISECONDS, asked.rounds);
    for (kind, side) in asked.floors() {
        let mut c = closed(kind, side);
        for (accurate, word) in [(false, ""), (true, ", accurate")] {
            c.options.accurate = accurate;
            let name = format!("{side} by {side} going round{word}");
            beside(&mut table, kind.name(), &name, &c, 23, reference_pass);
        }
    }
    table.end();
}

fn pass(asked: &Asked) {
    let title = "One pass: godf_solve with threshold 0 beside solve_mesh";
    let mut table = Table::new(title, MILLISECONDS, asked.rounds);
    asked.calls(false, |kind, name, c| {
        beside(&mut table, kind, name, &c, 0, reference_pass)
    });
    table.end();
}

fn solve(asked: &Asked) {
    let title = "Whole solve, refined: godf_solve beside solve_impl";
    let mut table = Table::new(title, MILLISECONDS, asked.rounds);
    asked.calls(true, |kind, name, c| {
        beside(&mut table, kind, name, &c, 0, reference_solve)
    });
    table.end();
}

type Layer = (&'static str, fn(&Asked));

const LAYERS: [Layer; 9] = [
    ("refinement", refinement),
    ("linear", linear::linear),
    ("probe", probe),
    ("singularities", singularities),
    ("setup", setup),
    ("pass", pass),
    ("solve", solve),
    ("dropin-solve", dropin::solve),
    ("dropin-probe", dropin::probe),
];

/// Where the command names none.
const ROUNDS: usize = 5;

fn main() {
    let asked = Asked::read(ROUNDS, &LAYERS.map(|layer| layer.0));
    for (name, run) in LAYERS {
        if asked.wants(name) {
            run(&asked);
        }
    }
}
