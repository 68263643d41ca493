//! A repeated solve in a workspace, and any solve in the caller's slices, allocates nothing.

mod common;

use common::calls;
use godf::{Floor, Lengths, Lent, Refined, Workspace};
use std::{
    alloc::{GlobalAlloc, Layout, System},
    cell::Cell,
};

/// Counts the allocations of each thread, and the bytes that are allocated now.
struct Counting;

thread_local! {
    static ASKED: Cell<usize> = const { Cell::new(0) };
    static HELD: Cell<usize> = const { Cell::new(0) };
}

fn note(more: usize, less: usize) {
    ASKED.set(ASKED.get() + usize::from(more > 0));
    HELD.set(HELD.get().wrapping_add(more).wrapping_sub(less));
}

// SAFETY: the system's allocator, which it hands everything on to
unsafe impl GlobalAlloc for Counting {
    unsafe fn alloc(&self, layout: Layout) -> *mut u8 {
        note(layout.size(), 0);
        System.alloc(layout)
    }
    unsafe fn alloc_zeroed(&self, layout: Layout) -> *mut u8 {
        note(layout.size(), 0);
        System.alloc_zeroed(layout)
    }
    unsafe fn realloc(&self, pointer: *mut u8, layout: Layout, size: usize) -> *mut u8 {
        note(size, layout.size());
        System.realloc(pointer, layout, size)
    }
    unsafe fn dealloc(&self, pointer: *mut u8, layout: Layout) {
        note(0, layout.size());
        System.dealloc(pointer, layout);
    }
}

#[global_allocator]
static ALLOCATOR: Counting = Counting;

/// An answer, and how often it allocated.
fn counted<T>(call: impl FnOnce() -> T) -> (T, usize) {
    let before = ASKED.get();
    let answer = call();
    (answer, ASKED.get() - before)
}

#[test]
fn the_count_counts() {
    assert_eq!(counted(|| vec![1u8; 10]).1, 1);
}

#[test]
fn repeated_solves() {
    let calls: Vec<_> = calls(5, 200).collect();
    let mut workspace = Workspace::new();
    let mut refined = Refined::default();
    let (mut first, mut fields) = (0, 0);
    for round in 0..2 {
        for call in &calls {
            let floor = call.floor();
            let solve = || {
                let field = workspace.solve(floor, &call.options, call.guidance.as_ref(), call.iterations)?;
                refined.refine(floor, field.first_angles(), call.options.adaptive)?;
                Ok::<_, godf::Refusal>(field.angles().len() + field.counts().cut)
            };
            let (answer, asked) = counted(solve);
            if round == 0 {
                first += asked;
            } else {
                assert_eq!(asked, 0, "a repeated solve of {} points", call.points.len());
                fields += usize::from(answer.is_ok());
            }
        }
    }
    assert!(first > 0 && fields > 50);
}

#[test]
fn slices_of_the_caller() {
    let floor = Floor {
        points: &[[0.0, 0.0, 0.0], [1.0, 0.0, 0.0], [0.0, 1.0, 0.0]],
        triangles: &[[0, 1, 2]],
        sizes: &[1.0, 2.0, 3.0],
    };
    let options = godf::Options::new().adaptive(0.01);
    let lengths = Lengths::of(3, 1, options.adaptive);
    let (mut coarse, mut fine) = (vec![0.0; lengths.coarse], vec![0.0; lengths.fine]);
    let (mut work, mut numbers) = (vec![0.0; lengths.work], vec![0; lengths.numbers]);
    let mut lent = Lent {
        coarse: &mut coarse,
        fine: &mut fine,
        work: &mut work,
        numbers: &mut numbers,
    };
    let (answer, asked) = counted(|| lent.solve(floor, &options, None, 100));
    assert_eq!(asked, 0);
    let counts = answer.expect("a field");
    assert_eq!(godf::answer(&coarse, &fine, 3, counts.flagged).len(), 3);
    assert_eq!(godf::answer(&coarse, &fine, 99, counts.flagged), []);
}

#[test]
fn a_workspace_of_its_capacity() {
    let call = calls(5, 50).find(|call| call.options.adaptive > 0.0).expect("a call");
    let (floor, options, guidance) = (call.floor(), call.options, call.guidance.as_ref());
    let mut workspace = Workspace::with_capacity(call.points.len(), call.triangles.len(), options.adaptive);
    let solve = || workspace.solve(floor, &options, guidance, 100).is_ok();
    assert_eq!(counted(solve).1, 0);
}

/// A workspace gives memory back, and works as before.
#[test]
fn a_workspace_that_shrinks() {
    let all: Vec<_> = calls(5, 50).filter(|call| call.options.adaptive > 0.0).collect();
    let large = all.iter().max_by_key(|call| call.triangles.len()).expect("a call");
    let small = all.iter().min_by_key(|call| call.triangles.len()).expect("a call");
    let bytes = |call: &common::Call| {
        let Lengths {
            coarse,
            fine,
            work,
            numbers,
            ..
        } = Lengths::of(call.points.len(), call.triangles.len(), call.options.adaptive);
        8 * (coarse + fine + work) + 4 * numbers
    };
    let before = HELD.get();
    let mut workspace = Workspace::new();
    let solve = |workspace: &mut Workspace, call: &common::Call| {
        let field = workspace.solve(call.floor(), &call.options, call.guidance.as_ref(), call.iterations);
        field.map(|field| field.angles().to_vec())
    };
    let answer = solve(&mut workspace, large);
    drop(answer.clone());
    let kept = answer.as_ref().map_or(0, |angles| 8 * angles.capacity());
    assert_eq!(HELD.get() - before, bytes(large) + kept);
    workspace.shrink(small.points.len(), small.triangles.len(), small.options.adaptive);
    assert_eq!(HELD.get() - before, bytes(small) + kept);
    assert_eq!(
        counted(|| workspace
            .solve(small.floor(), &small.options, small.guidance.as_ref(), 100)
            .is_ok())
        .1,
        0
    );
    assert_eq!(solve(&mut workspace, large), answer);
    workspace.shrink(0, 0, 0.0);
    assert_eq!(HELD.get() - before, kept);
    assert_eq!(solve(&mut workspace, large), answer);
}

/// A thread's solves by the reference's functions allocate the answer and nothing else, from the second on; probes and counts nothing.
#[test]
fn functions_of_the_reference() {
    use godf::simons_godf;
    let call = calls(5, 50).find(|call| call.guidance.is_none() && call.options.adaptive > 0.0);
    let call = call.expect("a call");
    let (corners, o) = (call.corners(), call.options);
    let options = simons_godf::Options {
        accurate: o.accurate,
        boundary: o.boundary,
        adaptive: o.adaptive,
        ..simons_godf::Options::default()
    };
    let solve = || simons_godf::solve_with_options(&call.points, &corners, &call.sizes, &options, 100);
    let (first, asked) = counted(solve);
    let angles = first.clone().expect("a field");
    assert!(asked > 1);
    let (second, asked) = counted(solve);
    assert_eq!((second, asked), (first, 1));
    let inside = call.points[call.points.len() / 2];
    for at in [[inside[0], inside[1]], [1e9, 0.0]] {
        let (_, asked) = counted(|| simons_godf::interp_angle(&angles, &call.points, &corners, at));
        assert_eq!(asked, 0);
    }
    assert_eq!(counted(|| simons_godf::count_singularities(&angles, &corners)).1, 0);
    let held = HELD.get();
    simons_godf::release_memory();
    let lengths = Lengths::of(call.points.len(), call.triangles.len(), o.adaptive);
    assert!(held - HELD.get() >= 8 * lengths.work);
}
