//! Why a call was refused. The texts are in words.rs.

use crate::words::{REASONS, REFUSALS};
use std::{error::Error, fmt};

/// Where the fault is. In pass 2 the numbers are those of the refined floor.
#[derive(Clone, Copy, Debug, PartialEq, Eq, Hash)]
#[non_exhaustive]
pub enum Place {
    /// No single place.
    None,
    /// A point, by its number.
    Point(usize),
    /// A triangle, by its number.
    Triangle(usize),
    /// The edge between two points, the lower first.
    Edge(usize, usize),
    /// [`Options::anisotropy_angle`](crate::Options::anisotropy_angle).
    AnisotropyAngle,
}

/// Why a call was refused: the row of the library's table, the place, and the pass.
///
/// `Display` gives the text:
///
/// ```
/// use godf::{Floor, Options, Place, Workspace};
/// let floor = Floor {
///     points: &[[0.0, 0.0, 0.0], [1.0, 0.0, 0.0], [0.0, 1.0, 0.0]],
///     triangles: &[[0, 1, 2]],
///     sizes: &[1.0, -2.0, 1.0],
/// };
/// let refusal = Workspace::new().solve(floor, &Options::default(), None, 10).unwrap_err();
/// assert_eq!((refusal.number, refusal.place), (7, Place::Point(1)));
/// assert!(refusal.to_string().starts_with("point 1: "));
/// ```
///
/// Rows are tested in the order of their numbers:
///
/// | number | fault |
/// |---|---|
/// | 1 to 5 | the counts of points, triangles, sizes and iterations |
/// | 6 to 8 | a point, a size, a triangle's corner |
/// | 9 to 17 | options and guidance |
/// | 18 | a slice is too short |
/// | 19 to 22 | areas, gradients and mean sizes |
/// | 23 | a boundary mode without a boundary |
/// | 24 | the solver failed, for one of thirteen reasons |
#[derive(Clone, Copy, Debug, PartialEq, Eq, Hash)]
#[non_exhaustive]
pub struct Refusal {
    /// The row, from 1 to 24.
    pub number: u32,
    /// Where the fault is: the lowest place of the row.
    pub place: Place,
    /// In row 24 the reason, from 1 to 13; otherwise 0.
    pub reason: u32,
    /// From row 19 on the pass: 1 on the floor as given, 2 on the refined floor; otherwise 0. After a refusal in pass 2, a solve with
    /// threshold 0 still gives the first pass's field.
    pub pass: u32,
}

/// A refusal's numbers as the library reports them.
#[derive(Default)]
pub(crate) struct Reported {
    pub number: u64,
    pub place: u64,
    pub other: u64,
    pub reason: u64,
    pub pass: u64,
}

impl Refusal {
    /// Of a call with `points` points.
    pub(crate) fn of(reported: &Reported, points: usize) -> Self {
        let (at, other) = (reported.place as usize, reported.other as usize);
        let place = match reported.number {
            17 if at == points => Place::AnisotropyAngle,
            6 | 7 | 16 | 17 | 20 | 21 => Place::Point(at),
            24 if reported.reason == 4 => Place::Point(at),
            8 | 19 => Place::Triangle(at),
            22 => Place::Edge(at, other),
            _ => Place::None,
        };
        Self {
            number: reported.number as u32,
            place,
            reason: reported.reason as u32,
            pass: reported.pass as u32,
        }
    }
}

impl fmt::Display for Place {
    fn fmt(&self, f: &mut fmt::Formatter) -> fmt::Result {
        match self {
            Self::None => write!(f, "the call"),
            Self::Point(i) => write!(f, "point {i}"),
            Self::Triangle(i) => write!(f, "triangle {i}"),
            Self::Edge(a, b) => write!(f, "edge from point {a} to point {b}"),
            Self::AnisotropyAngle => write!(f, "anisotropy_angle"),
        }
    }
}

/// The text of a row or of a reason.
fn text(table: &[(u64, &'static str)], number: u32) -> &'static str {
    let row = table.iter().find(|row| row.0 == u64::from(number));
    row.map_or("unknown to this version of the crate", |row| row.1)
}

impl Refusal {
    /// The text of the row, without the place: `include/godf_words.h` has the same for C.
    pub fn words(&self) -> &'static str {
        text(REFUSALS, self.number)
    }

    /// The text of the reason, which row 24 has.
    pub fn reason_words(&self) -> Option<&'static str> {
        (self.reason != 0).then(|| text(REASONS, self.reason))
    }
}

impl fmt::Display for Refusal {
    fn fmt(&self, f: &mut fmt::Formatter) -> fmt::Result {
        if self.pass == 2 {
            write!(f, "on the refined floor: ")?;
        }
        if self.place != Place::None {
            write!(f, "{}: ", self.place)?;
        }
        write!(f, "{}", self.words())?;
        match self.reason_words() {
            Some(reason) => write!(f, ": {reason}"),
            None => Ok(()),
        }
    }
}

impl Error for Refusal {}

/// So that `?` works where errors are strings, as in the reference.
impl From<Refusal> for String {
    fn from(refusal: Refusal) -> Self {
        refusal.to_string()
    }
}
