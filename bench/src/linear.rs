//! The linear solver on the floors' own systems.

use bench::{
    systems::{iteration, product},
    time::{Table, MICROSECONDS},
    words::Asked,
};
use oracle::{reference::System, PLATFORM};

/// How many iterations are timed at once.
const TURNS: usize = 50;

/// The first system that a pass solves on each floor.
fn systems(asked: &Asked, mut run: impl FnMut(&str, &str, &System)) {
    asked.calls(false, |kind, name, mut c| {
        c.iterations = 1;
        run(kind, name, &(PLATFORM.solve_keeping)(&c).1.systems[0]);
    });
}

pub fn linear(asked: &Asked) {
    let mut table = Table::new(
        "Linear: one iteration of conjugate gradient",
        MICROSECONDS,
        asked.rounds,
    );
    systems(asked, |kind, name, s| iteration(&mut table, kind, name, s, TURNS));
    table.end();
    let mut table = Table::new(
        "Linear: one product, godf_vertex_product at each vertex beside apply",
        MICROSECONDS,
        asked.rounds,
    );
    systems(asked, |kind, name, s| product(&mut table, kind, name, s));
    table.end();
}
