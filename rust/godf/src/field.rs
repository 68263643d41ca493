//! Calls that read a field.

use crate::{ffi, mode::in_default_mode};

/// The answer of a probe.
#[derive(Clone, Copy, Debug, PartialEq)]
#[non_exhaustive]
pub enum Probe {
    /// The cross angle in radians, in [0, pi/2).
    Angle(f64),
    /// `angles.len() != points.len()`, an angle is not finite, no triangle contains the place, or the direction vanishes there.
    NoAngle,
    /// The absolute value of an angle is above 131,072.
    TooLarge,
}

/// The angle of a field at `at`, interpolated in the first triangle that contains it. `angles` has the field's angle at each point.
///
/// ```
/// use godf::{probe, Probe};
/// let points = [[0.0, 0.0, 0.0], [1.0, 0.0, 0.0], [0.0, 1.0, 0.0]];
/// assert_eq!(probe(&[0.25; 3], &points, &[[0, 1, 2]], [0.2, 0.2]), Probe::Angle(0.25));
/// assert_eq!(probe(&[0.25; 3], &points, &[[0, 1, 2]], [5.0, 5.0]), Probe::NoAngle);
/// ```
pub fn probe(angles: &[f64], points: &[[f64; 3]], triangles: &[[u32; 3]], at: [f64; 2]) -> Probe {
    let points = points.as_flattened();
    let corners = triangles.as_flattened();
    let mut angle = 0.0;
    // SAFETY: each pointer goes with the length of its own slice
    let answer = in_default_mode(|| unsafe {
        ffi::godf_interp_angle(
            angles.as_ptr(),
            angles.len(),
            points.as_ptr(),
            points.len(),
            corners.as_ptr(),
            corners.len(),
            at[0],
            at[1],
            &mut angle,
        )
    });
    match answer {
        0 => Probe::Angle(angle),
        3 => Probe::TooLarge,
        _ => Probe::NoAngle,
    }
}

/// How many quads meet where a field has a singularity.
#[derive(Clone, Copy, Debug, PartialEq, Eq, Hash)]
pub enum Valence {
    /// Three: a charge above 0.
    Three,
    /// Five: a charge below 0.
    Five,
}

/// A triangle around which a field turns, with a charge other than 0.
#[derive(Clone, Copy, Debug, PartialEq, Eq, Hash)]
pub struct Singularity {
    /// The triangle's number.
    pub triangle: usize,
    /// The sign of its charge.
    pub valence: Valence,
}

/// How many triangles have a charge above 0 (three quads meet) and below 0 (five quads meet). Triangles with a corner that has no angle,
/// or one that is not finite, are skipped.
pub fn count_singularities(angles: &[f64], triangles: &[[u32; 3]]) -> (usize, usize) {
    let corners = triangles.as_flattened();
    let (mut valence_3, mut valence_5) = (0, 0);
    // SAFETY: each pointer goes with the length of its own slice
    in_default_mode(|| unsafe {
        ffi::godf_count_singularities(
            angles.as_ptr(),
            angles.len(),
            corners.as_ptr(),
            corners.len(),
            &mut valence_3,
            &mut valence_5,
        )
    });
    (valence_3, valence_5)
}

/// The triangles that [`count_singularities`] counts, in their order.
///
/// ```
/// use godf::{singularities, Singularity, Valence};
/// let found: Vec<Singularity> = singularities(&[0.0, 0.5, 1.0], &[[0, 1, 2], [0, 2, 1]]).collect();
/// let of = |triangle, valence| Singularity { triangle, valence };
/// assert_eq!(found, [of(0, Valence::Three), of(1, Valence::Five)]);
/// ```
pub fn singularities<'a>(angles: &'a [f64], triangles: &'a [[u32; 3]]) -> impl Iterator<Item = Singularity> + 'a {
    let charged = move |(triangle, corners): (usize, &[u32; 3])| {
        let valence = match count_singularities(angles, &[*corners]) {
            (1, _) => Valence::Three,
            (_, 1) => Valence::Five,
            _ => return None,
        };
        Some(Singularity { triangle, valence })
    };
    triangles.iter().enumerate().filter_map(charged)
}
