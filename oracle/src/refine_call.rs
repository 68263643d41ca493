//! godf_refine, through C, beside refine_once: floors of up to 200 points and 300 triangles, every number by its bits, and the ends of
//! the slices that must stay as they were.

use crate::{
    godf::{lent, refine, Refinement, MARK, MARK_U32},
    outcome::same_angles,
    random::Random,
    reference::Refined,
    BOUND,
};

struct Floor {
    points: Vec<[f64; 3]>,
    sizes: Vec<f64>,
    angles: Vec<f64>,
    tris: Vec<u32>,
    threshold: f64,
}

fn angle(r: &mut Random) -> f64 {
    match r.below(16) {
        0 => f64::NAN,
        1 => f64::INFINITY,
        2 => f64::NEG_INFINITY,
        3 => 1.7e308,
        4 => -1.7e308,
        5..=10 => r.pick(&[0.0, 0.25, 0.375, 0.5, -0.25, 1.5]),
        _ => r.unit() * 3.0 - 1.0,
    }
}

/// Any corners at all, one floor in ten large.
fn floor(r: &mut Random, large: bool) -> Floor {
    let n = 1 + r.below(if large { 200 } else { 12 });
    let t = 1 + r.below(if large { 300 } else { 10 });
    let huge = r.one_in(20);
    let scale = if huge { 1.7e308 } else { 10.0 };
    let point = |r: &mut Random| {
        let (x, y) = ((r.unit() - 0.5) * 2.0 * scale, r.unit() * scale);
        [x, y, if r.one_in(3) { f64::NAN } else { r.unit() }]
    };
    let points = (0..n).map(|_| point(r)).collect();
    let sizes = (0..n).map(|_| if huge { 1.7e308 } else { r.unit() + 1e-3 }).collect();
    let angles = (0..n).map(|_| angle(r)).collect();
    let threshold = [0.0, 0.25, 0.375, 0.5, std::f64::consts::FRAC_PI_4, r.unit()][r.below(6)];
    let mut tris: Vec<u32> = (0..3 * t).map(|_| r.below(n) as u32).collect();
    if t > 1 && r.one_in(3) {
        tris.copy_within(3 * (t - 1).., 0);
    }
    Floor {
        points,
        sizes,
        angles,
        tris,
        threshold,
    }
}

/// The answer's numbers, and marks to the length that was lent.
fn filled<T: Copy>(mut front: Vec<T>, length: usize, mark: T) -> Vec<T> {
    front.resize(length, mark);
    front
}

/// Whether slices that were full of marks hold the reference's answer, and marks behind it.
pub fn as_told(got: &Refinement, (points, tris, sizes, flagged, cut): Refined) -> bool {
    let counts = [points.len(), tris.len(), flagged, cut.len(), MARK_U32 as usize].map(|k| k as u64);
    let corners: Vec<u32> = tris.iter().flatten().map(|&v| v as u32).collect();
    let ends: Vec<u32> = cut.iter().flat_map(|&(a, b)| [a as u32, b as u32]).collect();
    got.code == 0
        && got.report == counts
        && same_angles(&filled(points.concat(), got.points.len(), MARK), &got.points)
        && same_angles(&filled(sizes, got.sizes.len(), MARK), &got.sizes)
        && filled(corners, got.corners.len(), MARK_U32) == got.corners
        && filled(ends, got.ends.len(), MARK_U32) == got.ends
}

pub fn compare(count: u64, seed: u64) -> bool {
    let mut r = Random::new(seed);
    let (mut differ, mut by_cuts) = (0, [0; 4]);
    for i in 0..count {
        let f = floor(&mut r, i % 10 == 0);
        let tris: Vec<[usize; 3]> = f
            .tris
            .chunks(3)
            .map(|t| [t[0], t[1], t[2]].map(|v| v as usize))
            .collect();
        let want = (BOUND.refine_once)(&f.points, &tris, &f.sizes, &f.angles, f.threshold);
        for t in &tris {
            let cut = |u: usize, v: usize| usize::from(want.4.contains(&(u.min(v), u.max(v))));
            by_cuts[cut(t[0], t[1]) + cut(t[1], t[2]) + cut(t[2], t[0])] += 1;
        }
        let mut got = lent(f.points.len(), tris.len(), r.below(4));
        refine(&mut got, &f.points.concat(), &f.tris, &f.sizes, &f.angles, f.threshold);
        differ += u64::from(!as_told(&got, want));
    }
    println!("godf_refine {count} compared, {differ} differ");
    eprintln!("triangles by cut sides: {by_cuts:?}");
    differ == 0
}
