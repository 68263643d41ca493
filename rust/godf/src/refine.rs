//! Refinement with the angles given.

use crate::{
    ffi,
    floor::Floor,
    mode::in_default_mode,
    refusal::{Place, Refusal, Reported},
    solve::{MOST_POINTS, MOST_TRIANGLES},
};

/// A refined floor. Old points keep their numbers; each cut side has one new point, its middle, in the order of `cut_sides`.
#[derive(Clone, Debug, Default, PartialEq)]
pub struct Refined {
    /// x, y and z of each point; z of a new point is 0.
    pub points: Vec<[f64; 3]>,
    /// The pieces of the old triangles, in their order: one more than it has cut sides.
    pub triangles: Vec<[u32; 3]>,
    /// The size at each point; of a new point the mean of the two ends of its side.
    pub sizes: Vec<f64>,
    /// The ends of each cut side, the lower first, in first-seen order.
    pub cut_sides: Vec<[u32; 2]>,
    /// On how many triangles the field turns by more than the threshold.
    pub flagged: usize,
}

impl Refined {
    /// As a floor.
    pub fn floor(&self) -> Floor<'_> {
        Floor {
            points: &self.points,
            triangles: &self.triangles,
            sizes: &self.sizes,
        }
    }

    /// Refines into this floor and reuses its memory: it allocates nothing if it has room for all points and triangles that a floor of
    /// this size could get. On a refusal it is left empty.
    pub fn refine(&mut self, floor: Floor, angles: &[f64], threshold: f64) -> Result<(), Refusal> {
        let (n, t) = (floor.points.len(), floor.triangles.len());
        // a floor that is too large is refused before the result slices are looked at
        let (most, parts) = if n > MOST_POINTS || t > MOST_TRIANGLES {
            (0, 0)
        } else {
            (n + 3 * t, 4 * t)
        };
        self.points.resize(most, [0.0; 3]);
        self.sizes.resize(most, 0.0);
        self.triangles.resize(parts, [0; 3]);
        self.cut_sides.resize(parts, [0; 2]);
        let points = floor.points.as_flattened();
        let corners = floor.triangles.as_flattened();
        let to_points = self.points.as_flattened_mut();
        let to_corners = self.triangles.as_flattened_mut();
        let to_ends = self.cut_sides.as_flattened_mut();
        let mut report = [0; 4];
        // SAFETY: each pointer goes with the length of its own slice; the result slices are borrowed for writing
        let number = in_default_mode(|| unsafe {
            ffi::godf_refine(
                points.as_ptr(),
                points.len(),
                corners.as_ptr(),
                corners.len(),
                floor.sizes.as_ptr(),
                floor.sizes.len(),
                angles.as_ptr(),
                angles.len(),
                threshold,
                to_points.as_mut_ptr(),
                to_points.len(),
                self.sizes.as_mut_ptr(),
                self.sizes.len(),
                to_corners.as_mut_ptr(),
                to_corners.len(),
                to_ends.as_mut_ptr(),
                to_ends.len(),
                report.as_mut_ptr(),
                report.len(),
            )
        });
        let place = report[0];
        let [points, triangles, flagged, cut] = if number == 0 {
            report.map(|x| x as usize)
        } else {
            [0; 4]
        };
        self.points.truncate(points);
        self.sizes.truncate(points);
        self.triangles.truncate(triangles);
        self.cut_sides.truncate(cut);
        self.flagged = flagged;
        if number == 0 {
            return Ok(());
        }
        let reported = Reported {
            number,
            place,
            ..Reported::default()
        };
        Err(Refusal::of(&reported, n))
    }
}

/// Splits the triangles on which the field `angles` turns by more than `threshold` radians, and their neighbours along the cut sides, so
/// that no side has a crack.
///
/// ```
/// let floor = godf::Floor {
///     points: &[[0.0, 0.0, 0.0], [2.0, 0.0, 0.0], [2.0, 2.0, 0.0], [0.0, 2.0, 0.0]],
///     triangles: &[[0, 1, 2], [0, 2, 3]],
///     sizes: &[1.0; 4],
/// };
/// let refined = godf::refine(floor, &[0.0, 0.375, 0.0, 0.0], 0.25)?;
/// assert_eq!(refined.cut_sides, [[0, 1], [1, 2], [0, 2]]);
/// assert_eq!(refined.triangles, [[0, 4, 6], [4, 1, 5], [6, 5, 2], [4, 5, 6], [0, 6, 3], [6, 2, 3]]);
/// assert_eq!(refined.flagged, 1);
/// # Ok::<(), godf::Refusal>(())
/// ```
pub fn refine(floor: Floor, angles: &[f64], threshold: f64) -> Result<Refined, Refusal> {
    let mut refined = Refined::default();
    refined.refine(floor, angles, threshold)?;
    Ok(refined)
}

/// The numbers of the triangles on which the field turns by more than the threshold, which [`refine`] counts.
///
/// They come from the library's refinement of the same triangles without shared points: there a triangle is cut exactly if it is flagged.
pub fn flagged(angles: &[f64], triangles: &[[u32; 3]], threshold: f64) -> Result<Vec<usize>, Refusal> {
    let apart = |place| Refusal {
        number: 8,
        place: Place::Triangle(place),
        reason: 0,
        pass: 0,
    };
    let most = MOST_POINTS / 3;
    let (mut flagged, mut refined) = (vec![], Refined::default());
    for (k, part) in triangles.chunks(most).enumerate() {
        let first = k * most;
        let mut turned = Vec::with_capacity(3 * part.len());
        for (i, triangle) in part.iter().enumerate() {
            for &corner in triangle {
                turned.push(*angles.get(corner as usize).ok_or(apart(first + i))?);
            }
        }
        let triangles: Vec<[u32; 3]> = (0..part.len() as u32).map(|i| [3 * i, 3 * i + 1, 3 * i + 2]).collect();
        let floor = Floor {
            points: &vec![[0.0; 3]; turned.len()],
            triangles: &triangles,
            sizes: &vec![1.0; turned.len()],
        };
        refined.refine(floor, &turned, threshold)?;
        // three cut sides a flagged triangle, in the order of the triangles
        let sides = refined.cut_sides.chunks_exact(3);
        flagged.extend(sides.map(|side| first + side[0][0] as usize / 3));
    }
    Ok(flagged)
}
