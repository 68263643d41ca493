//! The drop-in on several threads, and on one that is ending.

mod common;

use common::{calls, same_angles, Call};
use godf::simons_godf::{self, Options};
use std::{
    cell::RefCell,
    sync::{
        mpsc::{self, Sender},
        Arc,
    },
    thread,
};

fn solve(call: &Call) -> Result<Vec<f64>, String> {
    let o = call.options;
    let options = Options {
        accurate: o.accurate,
        holomorphic: o.holomorphic,
        anisotropy: o.anisotropy,
        anisotropy_angle: o.anisotropy_angle,
        boundary: o.boundary,
        adaptive: o.adaptive,
    };
    simons_godf::solve_with_options(&call.points, &call.corners(), &call.sizes, &options, call.iterations)
}

fn same(a: &Result<Vec<f64>, String>, b: &Result<Vec<f64>, String>) -> bool {
    match (a, b) {
        (Ok(a), Ok(b)) => same_angles(a, b),
        (a, b) => a.as_ref().err() == b.as_ref().err(),
    }
}

/// Each thread solves every call, larger and smaller floors in turn, in the memory that it keeps.
#[test]
fn several_threads() {
    let calls: Vec<Call> = calls(8, 100).collect();
    let fresh = |call: &Call| {
        simons_godf::release_memory();
        solve(call)
    };
    let wanted: Vec<_> = calls.iter().map(fresh).collect();
    assert!(wanted.iter().filter(|answer| answer.is_ok()).count() > 50);
    thread::scope(|scope| {
        for first in 0..4 {
            let (calls, wanted) = (&calls, &wanted);
            scope.spawn(move || {
                for k in (first..calls.len()).chain(0..first) {
                    assert!(same(&solve(&calls[k]), &wanted[k]), "call {k}");
                }
            });
        }
    });
}

/// Solves when its thread ends.
struct Last(Arc<Call>, Sender<Result<Vec<f64>, String>>);

impl Drop for Last {
    fn drop(&mut self) {
        let _ = self.1.send(solve(&self.0));
    }
}

thread_local! {
    static LAST: RefCell<Option<Last>> = const { RefCell::new(None) };
}

/// Thread-local values are dropped in some order: the kept memory may be gone before the last call.
#[test]
fn a_thread_that_ends() {
    let call = Arc::new(calls(8, 100).find(|call| solve(call).is_ok()).expect("a call"));
    let wanted = solve(&call);
    for first in [true, false] {
        let (send, receive) = mpsc::channel();
        let call = Arc::clone(&call);
        let thread = thread::spawn(move || {
            let keep = || LAST.set(Some(Last(Arc::clone(&call), send)));
            if first {
                keep();
                let _ = solve(&call);
            } else {
                let _ = solve(&call);
                keep();
            }
        });
        thread.join().expect("a thread that ends well");
        assert!(same(&receive.recv().expect("an answer"), &wanted));
    }
}
