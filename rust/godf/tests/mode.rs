//! The floating-point mode of the caller makes no difference, and is as it was after every call.
#![cfg(target_arch = "x86_64")]

mod common;

use common::{calls, same_angles};
use godf::{simons_godf, Floor, Lengths, Probe, Workspace};
use std::{arch::asm, hint::black_box};

/// Flush-to-zero, denormals-are-zero, round towards zero, one flag raised, all exceptions masked.
const HOSTILE: u32 = 0x1f80 | 0x8000 | 0x0040 | 0x6000 | 0x0020;

fn mode() -> u32 {
    let mut mode = 0u32;
    unsafe { asm!("stmxcsr [{}]", in(reg) &mut mode) };
    mode
}

fn set_mode(mode: u32) {
    unsafe { asm!("ldmxcsr [{}]", in(reg) &mode) };
}

/// An answer found in the hostile mode, and the mode that is left.
fn left<T>(call: impl FnOnce() -> T) -> (T, u32) {
    let before = mode();
    set_mode(HOSTILE);
    let answer = call();
    let after = mode();
    set_mode(before);
    (answer, after)
}

/// The answer of a call made in the hostile mode, which it must leave as it is, flags too.
fn hostile<T>(call: impl FnOnce() -> T) -> T {
    let (answer, after) = left(call);
    assert_eq!(after, HOSTILE, "the mode after a call");
    answer
}

/// That the mode does change what is computed: otherwise these tests show nothing.
#[test]
fn the_mode_is_hostile() {
    let tenth = |x: f64| black_box(black_box(x) / black_box(10.0));
    assert_ne!(tenth(1.0), left(|| tenth(1.0)).0);
    assert_ne!(tenth(f64::MIN_POSITIVE), left(|| tenth(f64::MIN_POSITIVE)).0);
    assert_ne!(left(|| tenth(f64::MIN_POSITIVE)).1, HOSTILE);
}

#[test]
fn solves() {
    let mut workspace = Workspace::new();
    let mut fields = 0;
    for (i, call) in calls(3, 300).enumerate() {
        let mut solve = || {
            workspace
                .solve(call.floor(), &call.options, call.guidance.as_ref(), call.iterations)
                .map(|f| (f.angles().to_vec(), f.counts()))
        };
        let (plain, changed) = (solve(), hostile(solve));
        match (plain, changed) {
            (Ok(a), Ok(b)) => {
                assert!(same_angles(&a.0, &b.0) && a.1 == b.1, "call {i}");
                fields += 1;
            }
            (a, b) => assert_eq!(a.err(), b.err(), "call {i}"),
        }
    }
    assert!(fields > 100);
}

#[test]
fn the_other_calls() {
    let floor = Floor {
        points: &[
            [0.0, 0.0, 0.0],
            [2.0 / 3.0, 0.1, 0.0],
            [0.3, 5e-310, 0.0],
            [0.1, 0.7, 0.0],
        ],
        triangles: &[[0, 1, 3], [0, 2, 1]],
        sizes: &[1.0 / 3.0, 0.7, 0.1, 5e-320],
    };
    let angles = [0.1, 0.5, 0.9, 1.3];
    let refine = || godf::refine(floor, &angles, 0.1);
    assert_eq!(refine(), hostile(refine));
    assert!(refine().is_ok_and(|r| r.flagged == 2));
    let probe = || godf::probe(&angles, floor.points, floor.triangles, [0.1, 0.2]);
    assert_eq!(probe(), hostile(probe));
    assert!(matches!(probe(), Probe::Angle(_)));
    let corners = [[0, 1, 3], [0, 2, 1]];
    let probe = || simons_godf::interp_angle(&angles, floor.points, &corners, [0.1, 0.2]);
    assert_eq!(probe().to_bits(), hostile(probe).to_bits());
    assert!(probe().is_finite());
    let count = || godf::count_singularities(&[0.0, 0.5, 0.0, 1.0], floor.triangles);
    assert_eq!(count(), hostile(count));
    assert_eq!(count(), (1, 0));
    let matrix = godf::Matrix {
        diagonal: &[0.1, 1.0 / 3.0],
        off: &[[0.7, 1e-310]],
        from: &[0],
        to: &[1],
    };
    let lists = || godf::vertex_lists(2, matrix.from, matrix.to);
    assert_eq!(lists(), hostile(lists));
    let lists = lists().expect("lists");
    let product = || godf::vertex_product(matrix, &lists, &[[0.1, 0.3], [0.7, 5e-320]], 1);
    assert_eq!(product(), hostile(product));
    assert!(product().is_some());
    let lengths = || Lengths::of(4, 2, 5e-324);
    assert_eq!(lengths(), hostile(lengths));
    assert_eq!(lengths().fine, 10);
}
