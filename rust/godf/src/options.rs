//! The options of a solve, with the names, meanings and defaults of the reference.

use crate::ffi;

/// How the field follows the floor's boundary, the sides that lie in exactly one triangle.
#[derive(Clone, Copy, Debug, Default, PartialEq)]
pub enum BoundaryMode {
    /// Not at all.
    #[default]
    None,
    /// One arm of the cross lies along the boundary at each boundary point.
    Tangent,
    /// Crosses are pulled towards the boundary's direction with this weight, at least 0. A weight of 0 is [`BoundaryMode::None`]; a large
    /// one comes close to [`BoundaryMode::Tangent`].
    Weak(f64),
}

/// The options of a solve: start from the defaults and set what differs. The fields are public too.
///
/// ```
/// use godf::{BoundaryMode, Options};
/// let options = Options::new().boundary(BoundaryMode::Tangent).adaptive(0.2);
/// assert_eq!((options.adaptive, options.anisotropy), (0.2, 1.0));
/// ```
#[derive(Clone, Copy, Debug, PartialEq)]
#[non_exhaustive]
pub struct Options {
    /// Use integrals that account for a triangle's curvature, not their flat limits. Slower; it solves some floors whose sizes vary so
    /// much that the flat limits give a matrix that is not positive definite (row 24, reason 6).
    pub accurate: bool,
    /// The energy's parameter s: -1 is anti-holomorphic, 0 Dirichlet, 1 holomorphic.
    pub holomorphic: f64,
    /// The ratio a of the two sizes, above 0: crosses are pulled towards `anisotropy_angle` with weight (a + 1/a - 2)^2. Off at 1.
    pub anisotropy: f64,
    /// The direction of the longer size, in radians.
    pub anisotropy_angle: f64,
    /// How the field follows the boundary.
    pub boundary: BoundaryMode,
    /// The refinement threshold in radians, at least 0: triangles on which the first pass's field turns by more are split, and the field
    /// is solved again. Off at 0.
    pub adaptive: f64,
}

impl Default for Options {
    fn default() -> Self {
        Self {
            accurate: false,
            holomorphic: 0.0,
            anisotropy: 1.0,
            anisotropy_angle: 0.0,
            boundary: BoundaryMode::None,
            adaptive: 0.0,
        }
    }
}

impl Options {
    /// The defaults.
    pub fn new() -> Self {
        Self::default()
    }

    /// Sets [`accurate`](#structfield.accurate).
    #[must_use]
    pub fn accurate(self, accurate: bool) -> Self {
        Self { accurate, ..self }
    }

    /// Sets [`holomorphic`](#structfield.holomorphic).
    #[must_use]
    pub fn holomorphic(self, holomorphic: f64) -> Self {
        Self { holomorphic, ..self }
    }

    /// Sets [`anisotropy`](#structfield.anisotropy).
    #[must_use]
    pub fn anisotropy(self, anisotropy: f64) -> Self {
        Self { anisotropy, ..self }
    }

    /// Sets [`anisotropy_angle`](#structfield.anisotropy_angle).
    #[must_use]
    pub fn anisotropy_angle(self, anisotropy_angle: f64) -> Self {
        Self {
            anisotropy_angle,
            ..self
        }
    }

    /// Sets [`boundary`](#structfield.boundary).
    #[must_use]
    pub fn boundary(self, boundary: BoundaryMode) -> Self {
        Self { boundary, ..self }
    }

    /// Sets [`adaptive`](#structfield.adaptive).
    #[must_use]
    pub fn adaptive(self, adaptive: f64) -> Self {
        Self { adaptive, ..self }
    }

    pub(crate) fn numbers(&self) -> ffi::Options {
        let (boundary, boundary_weight) = match self.boundary {
            BoundaryMode::None => (0.0, 0.0),
            BoundaryMode::Tangent => (1.0, 0.0),
            BoundaryMode::Weak(weight) => (2.0, weight),
        };
        ffi::Options {
            accurate: f64::from(u8::from(self.accurate)),
            holomorphic: self.holomorphic,
            anisotropy: self.anisotropy,
            anisotropy_angle: self.anisotropy_angle,
            boundary,
            boundary_weight,
            adaptive: self.adaptive,
        }
    }
}

/// Target angles that the field is pulled towards.
#[derive(Clone, Debug, PartialEq)]
pub struct Guidance {
    /// How strongly, at least 0.
    pub weight: f64,
    /// An angle for each point, in radians.
    pub angle: Vec<f64>,
}
