//! The reference's solving functions and types, with its signatures: `use godf::simons_godf` replaces
//! `use pedroso_mesher::simons_godf`.
//!
//! Results have the bits of the reference over this library's sine, cosine and arctangent. The module differs from the reference in this:
//! - it does not have the four demonstrations `demo_holomorphic`, `demo_boundary`, `demo_anisotropy` and `demo_adaptive`, nor their
//!   `BoundaryReport`, `AnisotropyReport` and `AdaptiveReport`;
//! - errors are the texts of a [`Refusal`](crate::Refusal), not the reference's;
//! - floors over 16,384 points or 32,768 triangles are refused, and so are anisotropy and guidance angles above 131,072 in absolute value;
//! - [`interp_angle`] also returns a NaN if the absolute value of an angle is above 131,072.
//!
//! Each thread keeps the memory of its largest solve for the next one, 117 MB at most, until it ends or calls [`release_memory`]. New code
//! can use a [`Workspace`] of its own.

use crate::{field, mode::in_default_mode, Floor, Probe, Workspace};
pub use crate::{BoundaryMode, Guidance};
use std::cell::Cell;

/// The options of a solve, with the reference's fields and no others, so that they can be written out as there. The fields are those of
/// [`crate::Options`].
#[derive(Clone, Copy, Debug, PartialEq)]
pub struct Options {
    /// [`crate::Options::accurate`](crate::Options#structfield.accurate).
    pub accurate: bool,
    /// [`crate::Options::holomorphic`](crate::Options#structfield.holomorphic).
    pub holomorphic: f64,
    /// [`crate::Options::anisotropy`](crate::Options#structfield.anisotropy).
    pub anisotropy: f64,
    /// [`crate::Options::anisotropy_angle`](crate::Options#structfield.anisotropy_angle).
    pub anisotropy_angle: f64,
    /// [`crate::Options::boundary`](crate::Options#structfield.boundary).
    pub boundary: BoundaryMode,
    /// [`crate::Options::adaptive`](crate::Options#structfield.adaptive).
    pub adaptive: f64,
}

impl Default for Options {
    fn default() -> Self {
        let crate::Options {
            accurate,
            holomorphic,
            anisotropy,
            anisotropy_angle,
            boundary,
            adaptive,
        } = crate::Options::default();
        Self {
            accurate,
            holomorphic,
            anisotropy,
            anisotropy_angle,
            boundary,
            adaptive,
        }
    }
}

impl From<Options> for crate::Options {
    fn from(options: Options) -> Self {
        Self {
            accurate: options.accurate,
            holomorphic: options.holomorphic,
            anisotropy: options.anisotropy,
            anisotropy_angle: options.anisotropy_angle,
            boundary: options.boundary,
            adaptive: options.adaptive,
        }
    }
}

/// The largest absolute value of an angle that the library's probe takes.
const LARGEST_ANGLE: f64 = 131_072.0;
/// How many angles are checked, or triangles converted, at a time.
const CHUNK: usize = 256;

/// A corner as the library takes it. One that does not fit into 32 bits is no point's number, and neither is what it becomes.
fn corner(v: usize) -> u32 {
    u32::try_from(v).unwrap_or(u32::MAX)
}

/// What a thread keeps between solves.
#[derive(Default)]
struct Memory {
    workspace: Workspace,
    triangles: Vec<[u32; 3]>,
}

thread_local! {
    static MEMORY: Cell<Memory> = Cell::default();
}

/// Runs a solve in the thread's memory, which is taken out for the call: a call from inside this one would find none and use its own. So
/// does a call while the thread ends.
fn with_memory<T>(call: impl FnOnce(&mut Memory) -> T) -> T {
    let mut memory = MEMORY.try_with(Cell::take).unwrap_or_default();
    let answer = call(&mut memory);
    let _ = MEMORY.try_with(|kept| kept.set(memory));
    answer
}

/// Gives back the memory that this thread keeps between solves.
pub fn release_memory() {
    with_memory(|memory| *memory = Memory::default());
}

fn solved(
    points: &[[f64; 3]],
    tris: &[[usize; 3]],
    sizes: &[f64],
    guidance: Option<&Guidance>,
    options: &Options,
    iterations: usize,
) -> Result<Vec<f64>, String> {
    with_memory(|memory| {
        memory.triangles.clear();
        memory.triangles.extend(tris.iter().map(|t| t.map(corner)));
        let floor = Floor {
            points,
            triangles: &memory.triangles,
            sizes,
        };
        let options = crate::Options::from(*options);
        let field = memory.workspace.solve(floor, &options, guidance, iterations)?;
        Ok(field.angles().to_vec())
    })
}

/// The cross field of a floor: for each point an angle in radians, in [0, pi/2).
///
/// ```
/// use godf::simons_godf;
/// let points = vec![[0.0, 0.0, 0.0], [1.0, 0.0, 0.0], [0.0, 1.0, 0.0]];
/// let angle = simons_godf::solve(&points, &[[0, 1, 2]], &[1.0, 1.0, 1.0], 50)?;
/// assert_eq!(angle.len(), 3);
/// # Ok::<(), String>(())
/// ```
pub fn solve(points: &[[f64; 3]], tris: &[[usize; 3]], size: &[f64], iterations: usize) -> Result<Vec<f64>, String> {
    solved(points, tris, size, None, &Options::default(), iterations)
}

/// The cross field of a floor, with options.
///
/// ```
/// use godf::simons_godf::{self, BoundaryMode, Options};
/// let points = vec![[0.0, 0.0, 0.0], [1.0, 0.0, 0.0], [0.0, 1.0, 0.0]];
/// let options = Options { boundary: BoundaryMode::Tangent, ..Options::default() };
/// let angle = simons_godf::solve_with_options(&points, &[[0, 1, 2]], &[1.0, 1.0, 1.0], &options, 50)?;
/// assert_eq!(angle.len(), 3);
/// # Ok::<(), String>(())
/// ```
pub fn solve_with_options(
    points: &[[f64; 3]],
    tris: &[[usize; 3]],
    size: &[f64],
    options: &Options,
    iterations: usize,
) -> Result<Vec<f64>, String> {
    solved(points, tris, size, None, options, iterations)
}

/// The cross field of a floor, pulled towards target angles.
pub fn solve_with_guidance(
    points: &[[f64; 3]],
    tris: &[[usize; 3]],
    size: &[f64],
    guidance: &Guidance,
    iterations: usize,
) -> Result<Vec<f64>, String> {
    solved(points, tris, size, Some(guidance), &Options::default(), iterations)
}

/// The cross field of a floor, pulled towards target angles, with options.
pub fn solve_with_guidance_and_options(
    points: &[[f64; 3]],
    tris: &[[usize; 3]],
    size: &[f64],
    guidance: &Guidance,
    options: &Options,
    iterations: usize,
) -> Result<Vec<f64>, String> {
    solved(points, tris, size, Some(guidance), options, iterations)
}

fn difference(a: &[f64; 3], b: &[f64; 2]) -> [f64; 2] {
    [a[0] - b[0], a[1] - b[1]]
}

fn cross(a: [f64; 2], b: [f64; 2]) -> f64 {
    a[0] * b[1] - a[1] * b[0]
}

/// True only if the library's probe skips this triangle.
///
/// The library computes weights c/d, where d is the cross product of two sides and c that of the directions from the place to two corners.
/// It skips the triangle if a corner is no point, if d is not finite or at most `f64::MIN_POSITIVE` in absolute value, or if a weight is
/// below -1e-12. Here c and d come from the same operations, and c is compared with -1e-11 d, not c/d with -1e-12: that saves the
/// divisions, and no rounding of a product or a quotient makes up for the factor of 10.
fn is_skipped(points: &[[f64; 3]], triangle: &[usize; 3], place: &[f64; 2]) -> bool {
    const MARGIN: f64 = -1e-11;
    let [i, j, k] = *triangle;
    if i >= points.len() || j >= points.len() || k >= points.len() {
        return true;
    }
    let (i, j, k) = (&points[i], &points[j], &points[k]);
    let base = [i[0], i[1]];
    let denominator = cross(difference(j, &base), difference(k, &base));
    let limit = MARGIN * denominator;
    let (i, j, k) = (difference(i, place), difference(j, place), difference(k, place));
    // a comparison with a NaN is false
    let outside = if denominator > 0.0 {
        cross(j, k) < limit || cross(k, i) < limit || cross(i, j) < limit
    } else {
        cross(j, k) > limit || cross(k, i) > limit || cross(i, j) > limit
    };
    outside || !denominator.is_finite() || denominator.abs() <= f64::MIN_POSITIVE
}

/// The cross angle of the field `alpha` at `p`, or a NaN if there is none.
///
/// Triangles that cannot contain `p` are passed over here, and the library is asked about the first that may: a question copies no
/// triangles.
pub fn interp_angle(alpha: &[f64], points: &[[f64; 3]], tris: &[[usize; 3]], p: [f64; 2]) -> f64 {
    // the library's check of all angles; a NaN fails it too
    let usable = |chunk: &[f64]| {
        chunk
            .iter()
            .fold(true, |all, angle| all & (angle.abs() <= LARGEST_ANGLE))
    };
    if alpha.len() != points.len() || !alpha.chunks(CHUNK).all(usable) {
        return f64::NAN;
    }
    let first = in_default_mode(|| tris.iter().position(|t| !is_skipped(points, t, &p)));
    let rest = &tris[first.unwrap_or(tris.len())..];
    let Some(&triangle) = rest.first() else { return f64::NAN };
    // a floor of this triangle alone; its corners are points, since it was not skipped
    let (angles, corners) = (triangle.map(|v| alpha[v]), triangle.map(|v| points[v]));
    if let Probe::Angle(angle) = field::probe(&angles, &corners, &[[0, 1, 2]], p) {
        return angle;
    }
    // either this triangle has no angle at p, or p is just outside and a later triangle may contain it
    let rest: Vec<[u32; 3]> = rest.iter().map(|t| t.map(corner)).collect();
    match field::probe(alpha, points, &rest, p) {
        Probe::Angle(angle) => angle,
        Probe::NoAngle | Probe::TooLarge => f64::NAN,
    }
}

/// How many triangles have a singularity of valence 3, and of valence 5.
pub fn count_singularities(alpha: &[f64], tris: &[[usize; 3]]) -> (usize, usize) {
    let mut triangles = [[0; 3]; CHUNK];
    let mut sum = (0, 0);
    for chunk in tris.chunks(CHUNK) {
        let triangles = &mut triangles[..chunk.len()];
        for (to, t) in triangles.iter_mut().zip(chunk) {
            *to = t.map(corner);
        }
        let (valence_3, valence_5) = field::count_singularities(alpha, triangles);
        sum = (sum.0 + valence_3, sum.1 + valence_5);
    }
    sum
}

#[cfg(test)]
mod tests {
    use super::*;

    /// A call inside another has memory of its own, and neither is lost.
    #[test]
    fn memory_of_a_call_inside_another() {
        let kept = |memory: &mut Memory| memory.triangles.capacity();
        with_memory(|outer| {
            outer.triangles.reserve(1000);
            assert_eq!(with_memory(|inner| kept(inner)), 0);
        });
        assert!(with_memory(|memory| kept(memory)) >= 1000);
        release_memory();
        assert_eq!(with_memory(|memory| kept(memory)), 0);
    }
}
