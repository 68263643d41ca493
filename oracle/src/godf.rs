//! The calls of libgodf.a on floors and matrices (include/godf.h), on slices.

use crate::case::{Boundary, Case};

/// include/godf.h's struct godf_options.
#[repr(C)]
pub struct Options {
    accurate: f64,
    holomorphic: f64,
    anisotropy: f64,
    anisotropy_angle: f64,
    boundary: f64,
    boundary_weight: f64,
    adaptive: f64,
}

/// include/godf.h's struct godf_report.
#[repr(C)]
#[derive(Clone, Copy, Default)]
pub struct Report {
    pub number: u64,
    pub place: u64,
    pub other: u64,
    pub pass: u64,
    pub reason: u64,
    pub flagged: u64,
    pub cut: u64,
}

extern "C" {
    fn godf_solve(
        points: *const f64,
        point_numbers: usize,
        triangles: *const u32,
        corners: usize,
        sizes: *const f64,
        size_count: usize,
        guidance: *const f64,
        guidance_count: usize,
        guided: u32,
        weight: f64,
        options: *const Options,
        iterations: usize,
        coarse: *mut f64,
        coarse_count: usize,
        fine: *mut f64,
        fine_count: usize,
        work: *mut f64,
        work_count: usize,
        numbers: *mut u32,
        number_count: usize,
        report: *mut Report,
    ) -> u64;
    fn godf_work_f64(n: usize, triangles: usize, threshold: f64) -> usize;
    fn godf_work_u32(n: usize, triangles: usize, threshold: f64) -> usize;
    fn godf_fine_count(n: usize, triangles: usize, threshold: f64) -> usize;
    fn godf_answer(
        coarse: *const f64,
        coarse_count: usize,
        fine: *const f64,
        fine_count: usize,
        n: usize,
        flagged: usize,
        count: *mut usize,
    ) -> u32;
    fn godf_refine(
        points: *const f64,
        point_numbers: usize,
        triangles: *const u32,
        corners: usize,
        sizes: *const f64,
        size_count: usize,
        angles: *const f64,
        angle_count: usize,
        threshold: f64,
        new_points: *mut f64,
        new_point_numbers: usize,
        new_sizes: *mut f64,
        new_size_count: usize,
        new_triangles: *mut u32,
        new_corners: usize,
        cut_ends: *mut u32,
        cut_end_count: usize,
        report: *mut u64,
        report_count: usize,
    ) -> u64;
    fn godf_interp_angle(
        alpha: *const f64,
        alphas: usize,
        points: *const f64,
        point_numbers: usize,
        triangles: *const u32,
        corners: usize,
        x: f64,
        y: f64,
        angle: *mut f64,
    ) -> u32;
    fn godf_count_singularities(
        alpha: *const f64,
        alphas: usize,
        triangles: *const u32,
        corners: usize,
        valence_3: *mut usize,
        valence_5: *mut usize,
    ) -> u32;
    fn godf_vertex_lists(
        n: usize,
        from: *const u32,
        edges: usize,
        to: *const u32,
        ends: usize,
        lists: *mut u32,
        list_numbers: usize,
    ) -> u32;
    fn godf_vertex_product(
        diagonal: *const f64,
        n: usize,
        off: *const f64,
        off_numbers: usize,
        from: *const u32,
        edges: usize,
        to: *const u32,
        ends: usize,
        lists: *const u32,
        list_numbers: usize,
        x: *const f64,
        x_numbers: usize,
        vertex: usize,
        re: *mut f64,
        im: *mut f64,
    ) -> u32;
}

/// The result slices of a refinement, and what it tells.
#[derive(Clone)]
pub struct Refinement {
    pub code: u64,
    pub report: [u64; 5],
    pub points: Vec<f64>,
    pub sizes: Vec<f64>,
    pub corners: Vec<u32>,
    pub ends: Vec<u32>,
}

/// What the result slices hold before a call.
pub const MARK: f64 = -7.5;
pub const MARK_U32: u32 = 777;

/// Result slices full of marks, so many numbers longer than n points and t triangles ask for.
pub fn lent(n: usize, t: usize, spare: usize) -> Refinement {
    Refinement {
        code: 0,
        report: [u64::from(MARK_U32); 5],
        points: vec![MARK; 3 * (n + 3 * t) + spare],
        sizes: vec![MARK; n + 3 * t + spare],
        corners: vec![MARK_U32; 12 * t + spare],
        ends: vec![MARK_U32; 8 * t + spare],
    }
}

pub fn refine(to: &mut Refinement, points: &[f64], tris: &[u32], sizes: &[f64], angles: &[f64], threshold: f64) {
    // SAFETY: each pointer goes with the length of its own slice
    to.code = unsafe {
        godf_refine(
            points.as_ptr(),
            points.len(),
            tris.as_ptr(),
            tris.len(),
            sizes.as_ptr(),
            sizes.len(),
            angles.as_ptr(),
            angles.len(),
            threshold,
            to.points.as_mut_ptr(),
            to.points.len(),
            to.sizes.as_mut_ptr(),
            to.sizes.len(),
            to.corners.as_mut_ptr(),
            to.corners.len(),
            to.ends.as_mut_ptr(),
            to.ends.len(),
            to.report.as_mut_ptr(),
            to.report.len(),
        )
    };
}

/// The angle, or NaN where there is none.
pub fn interp_angle(alpha: &[f64], points: &[f64], tris: &[u32], at: [f64; 2]) -> f64 {
    let mut angle = f64::NAN;
    let (alphas, numbers, corners) = (alpha.len(), points.len(), tris.len());
    // SAFETY: each pointer goes with the length of its own slice
    unsafe {
        godf_interp_angle(
            alpha.as_ptr(),
            alphas,
            points.as_ptr(),
            numbers,
            tris.as_ptr(),
            corners,
            at[0],
            at[1],
            &mut angle,
        )
    };
    angle
}

pub fn count_singularities(alpha: &[f64], tris: &[u32]) -> (usize, usize) {
    let (mut threes, mut fives) = (0, 0);
    // SAFETY: each pointer goes with the length of its own slice
    unsafe {
        godf_count_singularities(
            alpha.as_ptr(),
            alpha.len(),
            tris.as_ptr(),
            tris.len(),
            &mut threes,
            &mut fives,
        )
    };
    (threes, fives)
}

/// What a solve is lent: coarse and fine angles, f64 and u32 work.
pub struct Lent {
    pub coarse: Vec<f64>,
    pub fine: Vec<f64>,
    pub work: Vec<f64>,
    pub numbers: Vec<u32>,
}

impl Lent {
    /// Slices of the lengths that a case lends, full of marks.
    pub fn to(case: &Case) -> Self {
        let [coarse, fine, work, numbers] = case.lent();
        Self {
            coarse: vec![MARK; coarse],
            fine: vec![MARK; fine],
            work: vec![MARK; work],
            numbers: vec![MARK_U32; numbers],
        }
    }
}

/// A solve: the number that it returns, and its report, which holds 777s before the call.
pub fn solve(case: &Case, lent: &mut Lent) -> (u64, Report) {
    let o = &case.options;
    let (boundary, boundary_weight) = match o.boundary {
        Boundary::None => (0.0, 0.0),
        Boundary::Tangent => (1.0, 0.0),
        Boundary::Weak(weight) => (2.0, weight),
    };
    let options = Options {
        accurate: if o.accurate { 1.0 } else { 0.0 },
        holomorphic: o.holomorphic,
        anisotropy: o.anisotropy,
        anisotropy_angle: o.anisotropy_angle,
        boundary,
        boundary_weight,
        adaptive: o.adaptive,
    };
    let none = vec![];
    let (guided, weight, angles) = case
        .guidance
        .as_ref()
        .map_or((0, 0.0, &none), |g| (1, g.weight, &g.angle));
    let held = u64::from(MARK_U32);
    let mut report = Report {
        number: held,
        place: held,
        other: held,
        pass: held,
        reason: held,
        flagged: held,
        cut: held,
    };
    // SAFETY: each pointer goes with the length of its own slice
    let number = unsafe {
        godf_solve(
            case.points.as_ptr(),
            case.points.len(),
            case.tris.as_ptr(),
            case.tris.len(),
            case.sizes.as_ptr(),
            case.sizes.len(),
            angles.as_ptr(),
            angles.len(),
            guided,
            weight,
            &options,
            case.iterations as usize,
            lent.coarse.as_mut_ptr(),
            lent.coarse.len(),
            lent.fine.as_mut_ptr(),
            lent.fine.len(),
            lent.work.as_mut_ptr(),
            lent.work.len(),
            lent.numbers.as_mut_ptr(),
            lent.numbers.len(),
            &mut report,
        )
    };
    (number, report)
}

/// The lengths that row 18 asks for, of a fine slice, f64 work and u32 work.
pub fn needed(n: usize, triangles: usize, threshold: f64) -> [usize; 3] {
    // SAFETY: numbers alone
    unsafe {
        [
            godf_fine_count(n, triangles, threshold),
            godf_work_f64(n, triangles, threshold),
            godf_work_u32(n, triangles, threshold),
        ]
    }
}

/// The answer of a solve.
pub fn answer<'a>(coarse: &'a [f64], fine: &'a [f64], n: usize, flagged: usize) -> &'a [f64] {
    let mut count = usize::MAX;
    // SAFETY: each pointer goes with the length of its own slice
    let which = unsafe {
        godf_answer(
            coarse.as_ptr(),
            coarse.len(),
            fine.as_ptr(),
            fine.len(),
            n,
            flagged,
            &mut count,
        )
    };
    [coarse, fine][which as usize].get(..count).unwrap_or(&[f64::NAN])
}

/// Writes the lists of the edges at each of n vertices: 0, or 1 where it writes nothing.
pub fn vertex_lists(n: usize, from: &[u32], to: &[u32], lists: &mut [u32]) -> u32 {
    // SAFETY: each pointer goes with the length of its own slice
    unsafe {
        godf_vertex_lists(
            n,
            from.as_ptr(),
            from.len(),
            to.as_ptr(),
            to.len(),
            lists.as_mut_ptr(),
            lists.len(),
        )
    }
}

/// A matrix with its lists, and a vector, as godf_vertex_product takes them. A complex number is a pair in `off` and `x`.
#[derive(Clone)]
pub struct Factors {
    pub diagonal: Vec<f64>,
    pub off: Vec<f64>,
    pub from: Vec<u32>,
    pub to: Vec<u32>,
    pub lists: Vec<u32>,
    pub x: Vec<f64>,
}

/// The product at one vertex: 0 or 1, and the two places that it is written to, which hold marks before the call.
pub fn vertex_product(of: &Factors, vertex: usize) -> (u32, [f64; 2]) {
    let [mut re, mut im] = [MARK; 2];
    // SAFETY: each pointer goes with the length of its own slice
    let code = unsafe {
        godf_vertex_product(
            of.diagonal.as_ptr(),
            of.diagonal.len(),
            of.off.as_ptr(),
            of.off.len(),
            of.from.as_ptr(),
            of.from.len(),
            of.to.as_ptr(),
            of.to.len(),
            of.lists.as_ptr(),
            of.lists.len(),
            of.x.as_ptr(),
            of.x.len(),
            vertex,
            &mut re,
            &mut im,
        )
    };
    (code, [re, im])
}
