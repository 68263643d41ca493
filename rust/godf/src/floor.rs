//! A borrowed floor.

/// A triangle floor with a size at each point.
#[derive(Clone, Copy, Debug, PartialEq)]
pub struct Floor<'a> {
    /// x, y and z of each point. z is only copied, by a refinement.
    pub points: &'a [[f64; 3]],
    /// The numbers of each triangle's corners, in either orientation.
    pub triangles: &'a [[u32; 3]],
    /// The size at each point, above 0.
    pub sizes: &'a [f64],
}
