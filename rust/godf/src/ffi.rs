//! The calls of libgodf.a: include/godf.h, in Rust.

/// A solve's options as numbers.
#[repr(C)]
pub struct Options {
    pub accurate: f64,
    pub holomorphic: f64,
    pub anisotropy: f64,
    pub anisotropy_angle: f64,
    /// 0 none, 1 tangent, 2 weak.
    pub boundary: f64,
    pub boundary_weight: f64,
    pub adaptive: f64,
}

/// The report of a solve.
#[repr(C)]
#[derive(Default)]
pub struct Report {
    pub number: u64,
    pub place: u64,
    pub other: u64,
    pub pass: u64,
    pub reason: u64,
    pub flagged: u64,
    pub cut: u64,
}

extern "C" {
    pub fn godf_version() -> u32;
    pub fn godf_solve(
        points: *const f64,
        point_numbers: usize,
        triangles: *const u32,
        corners: usize,
        sizes: *const f64,
        size_count: usize,
        guidance: *const f64,
        guidance_count: usize,
        guided: u32,
        weight: f64,
        options: *const Options,
        iterations: usize,
        coarse: *mut f64,
        coarse_count: usize,
        fine: *mut f64,
        fine_count: usize,
        work: *mut f64,
        work_count: usize,
        numbers: *mut u32,
        number_count: usize,
        report: *mut Report,
    ) -> u64;
    pub fn godf_work_f64(points: usize, triangles: usize, threshold: f64) -> usize;
    pub fn godf_work_u32(points: usize, triangles: usize, threshold: f64) -> usize;
    pub fn godf_fine_count(points: usize, triangles: usize, threshold: f64) -> usize;
    pub fn godf_answer(
        coarse: *const f64,
        coarse_count: usize,
        fine: *const f64,
        fine_count: usize,
        points: usize,
        flagged: usize,
        count: *mut usize,
    ) -> u32;
    pub fn godf_refine(
        points: *const f64,
        point_numbers: usize,
        triangles: *const u32,
        corners: usize,
        sizes: *const f64,
        size_count: usize,
        angles: *const f64,
        angle_count: usize,
        threshold: f64,
        new_points: *mut f64,
        new_point_numbers: usize,
        new_sizes: *mut f64,
        new_size_count: usize,
        new_triangles: *mut u32,
        new_corners: usize,
        cut_ends: *mut u32,
        cut_end_count: usize,
        report: *mut u64,
        report_count: usize,
    ) -> u64;
    pub fn godf_interp_angle(
        alpha: *const f64,
        alphas: usize,
        points: *const f64,
        point_numbers: usize,
        triangles: *const u32,
        corners: usize,
        x: f64,
        y: f64,
        angle: *mut f64,
    ) -> u32;
    pub fn godf_count_singularities(
        alpha: *const f64,
        alphas: usize,
        triangles: *const u32,
        corners: usize,
        valence_3: *mut usize,
        valence_5: *mut usize,
    ) -> u32;
    pub fn godf_vertex_lists(
        n: usize,
        from: *const u32,
        edges: usize,
        to: *const u32,
        ends: usize,
        lists: *mut u32,
        list_numbers: usize,
    ) -> u32;
    pub fn godf_vertex_product(
        diagonal: *const f64,
        n: usize,
        off: *const f64,
        off_numbers: usize,
        from: *const u32,
        edges: usize,
        to: *const u32,
        ends: usize,
        lists: *const u32,
        list_numbers: usize,
        x: *const f64,
        x_numbers: usize,
        vertex: usize,
        re: *mut f64,
        im: *mut f64,
    ) -> u32;
}
