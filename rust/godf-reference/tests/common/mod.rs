//! Calls of the reference's generator in the crate's types.

use godf::{
    simons_godf::Options,
    {BoundaryMode, Floor, Guidance},
};
use oracle::case::{Boundary, Case};

/// A call whose points and triangles are whole triples.
pub struct Call {
    pub case: Case,
    pub points: Vec<[f64; 3]>,
    pub triangles: Vec<[u32; 3]>,
}

impl Call {
    pub fn iterations(&self) -> usize {
        self.case.iterations as usize
    }
}

pub fn narrowed(tris: &[[usize; 3]]) -> Vec<[u32; 3]> {
    tris.iter().map(|t| t.map(|v| v as u32)).collect()
}

/// The calls of a seed, except those whose slices are not of whole triples: the crate's types have none such.
pub fn calls(seed: u64, count: usize) -> impl Iterator<Item = Call> {
    let whole = |case: &Case| case.points.len() % 3 == 0 && case.tris.len() % 3 == 0;
    let all = (0..).map(move |i| oracle::cases::nth(seed, i)).filter(whole);
    all.take(count).map(|case| Call {
        points: case.triples(),
        triangles: narrowed(&case.corners()),
        case,
    })
}

pub fn floor_of(call: &Call) -> Floor<'_> {
    Floor {
        points: &call.points,
        triangles: &call.triangles,
        sizes: &call.case.sizes,
    }
}

/// The options with the reference's fields.
pub fn options_of(case: &Case) -> Options {
    let o = &case.options;
    Options {
        accurate: o.accurate,
        holomorphic: o.holomorphic,
        anisotropy: o.anisotropy,
        anisotropy_angle: o.anisotropy_angle,
        boundary: match o.boundary {
            Boundary::None => BoundaryMode::None,
            Boundary::Tangent => BoundaryMode::Tangent,
            Boundary::Weak(weight) => BoundaryMode::Weak(weight),
        },
        adaptive: o.adaptive,
    }
}

pub fn guidance_of(case: &Case) -> Option<Guidance> {
    let g = case.guidance.as_ref()?;
    Some(Guidance {
        weight: g.weight,
        angle: g.angle.clone(),
    })
}
