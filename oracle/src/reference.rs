//! A copy of the reference as a table of its functions, private ones too, so that every recorder and comparison works over any copy:
//! the bound one, the platform's, and the wrong ones. accessors.rs, at the end of each copy, fills the table.

use crate::case::Case;

pub type Pair = [f64; 2];
/// Corners, positions and area.
pub type Geometry = ([usize; 3], [Pair; 3], f64);
/// Points, triangles, sizes, flagged triangles, cut sides.
pub type Refined = (Vec<[f64; 3]>, Vec<[usize; 3]>, Vec<f64>, usize, Vec<(usize, usize)>);

/// A Hermitian matrix, a right-hand side, and how conjugate_gradient is called with them.
#[derive(Clone)]
pub struct System {
    pub diagonal: Vec<f64>,
    pub ends: Vec<(usize, usize)>,
    pub off: Vec<Pair>,
    pub rhs: Vec<Pair>,
    pub tolerance: f64,
    pub most: usize,
}

/// A whole solve, and what was seen on the way: the first pass's angles, the counts of flagged triangles and cut sides, the second
/// pass's angles, and every system that conjugate_gradient was called with.
#[derive(Default)]
pub struct Seen {
    pub coarse: Option<Vec<f64>>,
    pub counts: Option<(usize, usize)>,
    pub fine: Option<Vec<f64>>,
    pub systems: Vec<System>,
}

pub struct Reference {
    pub mass_integral: fn(f64) -> Pair,
    pub dirichlet_integral: fn(f64, f64, f64, f64) -> Pair,
    pub dirichlet_diagonal: fn(f64, f64, Pair, Pair, Pair) -> f64,
    pub cross_angle: fn(f64, f64) -> f64,
    pub wrap_to_pi: fn(f64) -> f64,
    pub anisotropy_alignment_weight: fn(f64) -> f64,
    /// Of triangle 0 1 2 at these positions.
    pub triangle_geometry: fn([Pair; 3]) -> Result<Geometry, String>,
    pub triangle_gradient: fn([Pair; 3], [f64; 3], f64) -> Pair,
    pub transport_coefficient: fn([Pair; 2], [f64; 2], [Pair; 2]) -> Result<Pair, String>,
    pub triangle_field_variation: fn(&[f64], &[usize; 3]) -> f64,
    pub refine_once: fn(&[[f64; 3]], &[[usize; 3]], &[f64], &[f64], f64) -> Refined,
    pub extend_guidance: fn(&[f64], &[(usize, usize)], usize) -> Vec<f64>,
    /// The matrix times the right-hand side.
    pub apply: fn(&System) -> Vec<Pair>,
    /// The seconds of one product, without the making of the matrix.
    pub time_apply: fn(&System) -> f64,
    pub conjugate_gradient: fn(&System) -> Result<(Vec<Pair>, usize), String>,
    /// The seconds of one call, without the making of the matrix.
    pub time_conjugate_gradient: fn(&System) -> f64,
    /// Of the right-hand side.
    pub normalize_in_mass: fn(&System) -> Result<Vec<Pair>, String>,
    pub interp_angle: fn(&[f64], &[[f64; 3]], &[[usize; 3]], Pair) -> f64,
    pub count_singularities: fn(&[f64], &[[usize; 3]]) -> (usize, usize),
    /// The checks of a solve before its first pass.
    pub checks: fn(&Case) -> Result<(), String>,
    /// One pass, solve_mesh.
    pub pass: fn(&Case) -> Result<Vec<f64>, String>,
    /// A whole solve, solve_impl.
    pub solve: fn(&Case) -> (Result<Vec<f64>, String>, Seen),
    /// The same, with the systems kept.
    pub solve_keeping: fn(&Case) -> (Result<Vec<f64>, String>, Seen),
}
