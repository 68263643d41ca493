//! A whole solve: in the caller's slices, or in a workspace that grows as needed.

use crate::{
    ffi,
    floor::Floor,
    mode::in_default_mode,
    options::{Guidance, Options},
    refine::{refine, Refined},
    refusal::{Refusal, Reported},
};

/// The most points of a floor that is solved or refined.
pub const MOST_POINTS: usize = 16_384;
/// The most triangles of a floor that is solved or refined.
pub const MOST_TRIANGLES: usize = 32_768;

/// On how many triangles the first pass's field turned too far, and how many sides were cut for it. Both are 0 with threshold 0.
#[derive(Clone, Copy, Debug, Default, PartialEq, Eq)]
pub struct Counts {
    /// Triangles on which the field turned by more than the threshold.
    pub flagged: usize,
    /// Sides of these triangles, each counted once: the number of new points.
    pub cut: usize,
}

/// The least lengths of the slices that a solve needs.
///
/// ```
/// use godf::Lengths;
/// let lengths = Lengths::of(3, 1, 0.0);
/// assert_eq!(lengths, Lengths { coarse: 3, fine: 0, work: 224, numbers: 80 });
/// ```
#[derive(Clone, Copy, Debug, Default, PartialEq, Eq)]
pub struct Lengths {
    /// Of the first pass's angles.
    pub coarse: usize,
    /// Of the second pass's angles.
    pub fine: usize,
    /// Of the f64 work.
    pub work: usize,
    /// Of the u32 work.
    pub numbers: usize,
}

impl Lengths {
    /// For a floor of this many points and triangles and a threshold, by the library's own functions.
    pub fn of(points: usize, triangles: usize, threshold: f64) -> Self {
        // SAFETY: plain numbers
        let [fine, work, numbers] = in_default_mode(|| unsafe {
            [
                ffi::godf_fine_count(points, triangles, threshold),
                ffi::godf_work_f64(points, triangles, threshold),
                ffi::godf_work_u32(points, triangles, threshold),
            ]
        });
        Self {
            coarse: points,
            fine,
            work,
            numbers,
        }
    }
}

/// Slices for a solve, for a caller with memory of its own; [`Workspace`] has its own.
///
/// Use exactly the lengths of [`Lengths`]. Longer slices are allowed, but `work` and `numbers` are scratch that a call clears as a whole:
/// what they hold before a call does not matter, and a call that reaches its first pass leaves zeros in all of both.
#[derive(Debug)]
pub struct Lent<'a> {
    /// For the first pass's angles.
    pub coarse: &'a mut [f64],
    /// For the second pass's angles.
    pub fine: &'a mut [f64],
    /// The f64 work.
    pub work: &'a mut [f64],
    /// The u32 work.
    pub numbers: &'a mut [u32],
}

impl Lent<'_> {
    /// Solves, and allocates nothing. On success the front of `coarse` has the first pass's angles and, if a triangle was flagged, the
    /// front of `fine` those of the whole refined floor; the rest of both is unchanged. On a refusal both are unchanged.
    pub fn solve(
        &mut self,
        floor: Floor,
        options: &Options,
        guidance: Option<&Guidance>,
        iterations: usize,
    ) -> Result<Counts, Refusal> {
        let points = floor.points.as_flattened();
        let corners = floor.triangles.as_flattened();
        let (weight, angles) = guidance.map_or((0.0, &[][..]), |g| (g.weight, &g.angle));
        let numbers = options.numbers();
        let mut report = ffi::Report::default();
        // SAFETY: each pointer goes with the length of its own slice; those of `self` are borrowed for writing
        let number = in_default_mode(|| unsafe {
            ffi::godf_solve(
                points.as_ptr(),
                points.len(),
                corners.as_ptr(),
                corners.len(),
                floor.sizes.as_ptr(),
                floor.sizes.len(),
                angles.as_ptr(),
                angles.len(),
                u32::from(guidance.is_some()),
                weight,
                &numbers,
                iterations,
                self.coarse.as_mut_ptr(),
                self.coarse.len(),
                self.fine.as_mut_ptr(),
                self.fine.len(),
                self.work.as_mut_ptr(),
                self.work.len(),
                self.numbers.as_mut_ptr(),
                self.numbers.len(),
                &mut report,
            )
        });
        if number != 0 {
            let reported = Reported {
                number,
                place: report.place,
                other: report.other,
                reason: report.reason,
                pass: report.pass,
            };
            return Err(Refusal::of(&reported, floor.points.len()));
        }
        Ok(Counts {
            flagged: report.flagged as usize,
            cut: report.cut as usize,
        })
    }
}

/// The answer of a successful solve of a floor with `points` points: the first angles of `fine` if a triangle was flagged, otherwise of
/// `coarse`. Empty if that slice is shorter.
pub fn answer<'a>(coarse: &'a [f64], fine: &'a [f64], points: usize, flagged: usize) -> &'a [f64] {
    let mut count = 0;
    // SAFETY: each pointer goes with the length of its own slice
    let of_fine = unsafe {
        ffi::godf_answer(
            coarse.as_ptr(),
            coarse.len(),
            fine.as_ptr(),
            fine.len(),
            points,
            flagged,
            &mut count,
        )
    };
    &(if of_fine == 0 { coarse } else { fine })[..count]
}

/// Memory for solves, reused from call to call: a solve whose floor is not larger than an earlier one allocates nothing.
///
/// ```
/// use godf::{BoundaryMode, Floor, Options, Workspace};
/// let floor = Floor {
///     points: &[[0.0, 0.0, 0.0], [2.0, 0.0, 0.0], [2.0, 1.0, 0.0], [0.0, 1.0, 0.0], [0.9, 0.6, 0.0]],
///     triangles: &[[0, 1, 4], [1, 2, 4], [2, 3, 4], [3, 0, 4]],
///     sizes: &[1.0; 5],
/// };
/// let options = Options::new().boundary(BoundaryMode::Tangent);
/// let mut workspace = Workspace::new();
/// for _ in 0..2 {
///     let field = workspace.solve(floor, &options, None, 100)?;
///     assert!(field.angles().iter().all(|angle| angle.abs() < 1e-15));
///     assert_eq!(field.counts().flagged, 0);
/// }
/// # Ok::<(), godf::Refusal>(())
/// ```
#[derive(Clone, Debug, Default)]
pub struct Workspace {
    coarse: Vec<f64>,
    fine: Vec<f64>,
    work: Vec<f64>,
    numbers: Vec<u32>,
}

/// The first `length` elements. A shorter vector is replaced: what it holds does not matter.
fn front<T: Copy + Default>(of: &mut Vec<T>, length: usize) -> &mut [T] {
    if of.len() < length {
        *of = Vec::new();
        *of = vec![T::default(); length];
    }
    &mut of[..length]
}

/// Gives memory back, down to `length` elements.
fn shorten<T>(of: &mut Vec<T>, length: usize) {
    of.truncate(length);
    of.shrink_to_fit();
}

/// The lengths for a floor; 0 for one that is too large, which a solve refuses before it looks at the slices.
fn needed(points: usize, triangles: usize, threshold: f64) -> Lengths {
    if points > MOST_POINTS || triangles > MOST_TRIANGLES {
        Lengths::default()
    } else {
        Lengths::of(points, triangles, threshold)
    }
}

impl Workspace {
    /// A workspace that has no memory yet.
    pub fn new() -> Self {
        Self::default()
    }

    /// A workspace for floors of up to this many points and triangles, solved with this threshold.
    pub fn with_capacity(points: usize, triangles: usize, threshold: f64) -> Self {
        let mut workspace = Self::new();
        workspace.lend(points, triangles, threshold);
        workspace
    }

    /// Gives memory back, except what floors of up to this many points and triangles need with this threshold. `shrink(0, 0, 0.0)` gives
    /// all of it back.
    ///
    /// The largest floor takes 22 MB with threshold 0 and 117 MB with a threshold above 0.
    pub fn shrink(&mut self, points: usize, triangles: usize, threshold: f64) {
        let lengths = needed(points, triangles, threshold);
        shorten(&mut self.coarse, lengths.coarse);
        shorten(&mut self.fine, lengths.fine);
        shorten(&mut self.work, lengths.work);
        shorten(&mut self.numbers, lengths.numbers);
    }

    /// Slices of exactly the lengths needed: a call clears all the work that it is given.
    fn lend(&mut self, points: usize, triangles: usize, threshold: f64) -> Lent<'_> {
        let lengths = needed(points, triangles, threshold);
        Lent {
            coarse: front(&mut self.coarse, lengths.coarse),
            fine: front(&mut self.fine, lengths.fine),
            work: front(&mut self.work, lengths.work),
            numbers: front(&mut self.numbers, lengths.numbers),
        }
    }

    /// The field of a floor: a cross angle for each point, in radians in [0, pi/2).
    ///
    /// `iterations` limits the inverse iteration, which is used where neither boundary, guidance nor anisotropy acts; otherwise any number
    /// above 0 will do.
    pub fn solve(
        &mut self,
        floor: Floor,
        options: &Options,
        guidance: Option<&Guidance>,
        iterations: usize,
    ) -> Result<Field<'_>, Refusal> {
        let mut lent = self.lend(floor.points.len(), floor.triangles.len(), options.adaptive);
        let counts = lent.solve(floor, options, guidance, iterations)?;
        let fine = if counts.flagged > 0 {
            floor.points.len() + counts.cut
        } else {
            0
        };
        Ok(Field {
            coarse: &lent.coarse[..floor.points.len()],
            fine: &lent.fine[..fine],
            counts,
            threshold: options.adaptive,
        })
    }
}

/// The field of a floor, in a [`Workspace`].
#[derive(Clone, Copy, Debug, PartialEq)]
pub struct Field<'a> {
    coarse: &'a [f64],
    fine: &'a [f64],
    counts: Counts,
    threshold: f64,
}

impl<'a> Field<'a> {
    /// The angle at each point of the floor: the second pass's if the floor was refined.
    pub fn angles(&self) -> &'a [f64] {
        answer(self.coarse, self.fine, self.coarse.len(), self.counts.flagged)
    }

    /// The first pass's angles, by which triangles were flagged.
    pub fn first_angles(&self) -> &'a [f64] {
        self.coarse
    }

    /// The angles at all points of the refined floor, its new points last; `None` if no triangle was flagged.
    pub fn refined_angles(&self) -> Option<&'a [f64]> {
        (self.counts.flagged > 0).then_some(self.fine)
    }

    /// Flagged triangles and cut sides.
    pub fn counts(&self) -> Counts {
        self.counts
    }

    /// The refined floor of the second pass; `None` if no triangle was flagged. `floor` is the floor that was solved: another one may be
    /// refused, or get another refinement.
    ///
    /// ```
    /// use godf::{Floor, Guidance, Options, Workspace};
    /// let floor = Floor {
    ///     points: &[[0.0, 0.0, 0.0], [1.0, 0.0, 0.0], [0.0, 1.0, 0.0]],
    ///     triangles: &[[0, 1, 2]],
    ///     sizes: &[1.0; 3],
    /// };
    /// let guidance = Guidance { weight: 100.0, angle: vec![0.0, 0.3, 0.6] };
    /// let options = Options::new().adaptive(0.1);
    /// let mut workspace = Workspace::new();
    /// let field = workspace.solve(floor, &options, Some(&guidance), 100)?;
    /// let refined = field.refined_floor(floor)?.expect("a triangle that is flagged");
    /// assert_eq!(refined.triangles, [[0, 3, 5], [3, 1, 4], [5, 4, 2], [3, 4, 5]]);
    /// assert_eq!(field.refined_angles().map(<[f64]>::len), Some(6));
    /// # Ok::<(), godf::Refusal>(())
    /// ```
    pub fn refined_floor(&self, floor: Floor) -> Result<Option<Refined>, Refusal> {
        if self.counts.flagged == 0 {
            return Ok(None);
        }
        refine(floor, self.coarse, self.threshold).map(Some)
    }
}
