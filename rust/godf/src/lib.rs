//! Size-aware cross fields on triangle floors, by a proved solver.
//!
//! A cross field has a direction, up to quarter turns, at each point of a floor; quads are laid along it. This crate is a safe interface
//! to libgodf.a, a port of the Rust module `simons_godf` in which every function is proved to meet its contract. It has no other
//! dependencies.
//!
//! ```
//! use godf::{BoundaryMode, Floor, Options, Workspace};
//!
//! // a square with its middle point, all sizes 1
//! let floor = Floor {
//!     points: &[[0.0, 0.0, 0.0], [2.0, 0.0, 0.0], [2.0, 2.0, 0.0], [0.0, 2.0, 0.0], [1.0, 1.0, 0.0]],
//!     triangles: &[[0, 1, 4], [1, 2, 4], [2, 3, 4], [3, 0, 4]],
//!     sizes: &[1.0; 5],
//! };
//! let options = Options::new().boundary(BoundaryMode::Tangent);
//! let mut workspace = Workspace::new();
//! let field = workspace.solve(floor, &options, None, 100)?;
//! assert!(field.angles().iter().all(|angle| angle.abs() < 1e-15));
//! assert_eq!(godf::count_singularities(field.angles(), floor.triangles), (0, 0));
//! # Ok::<(), godf::Refusal>(())
//! ```
//!
//! - [`Workspace::solve`] finds the field of a [`Floor`] and reuses its memory from call to call. [`Lent::solve`] works in the caller's
//!   own slices.
//! - [`refine`] splits triangles on which a field turns too far; [`Field::refined_floor`] is the floor of a solve's second pass.
//! - [`probe`], [`count_singularities`] and [`singularities`] read a field.
//! - [`vertex_lists`] and [`vertex_product`] give the product of a [`Matrix`] and a vector one vertex at a time, so that it can be spread
//!   over threads.
//! - [`simons_godf`] has the reference's solving functions and types, so that a program that uses it changes one `use` line.
//!
//! A refused call says why: [`Refusal`]. No input makes a call panic, except when memory runs out.
//!
//! # What is proved
//!
//! The calls of libgodf.a are proved, down to the rounding of each operation. This crate passes slices to them and is tested: its calls
//! are compared bit by bit with the reference. On x86-64 every call sets the floating-point mode that the proofs assume and restores the
//! caller's (rounding, flush-to-zero, denormals-are-zero, traps, flags); on other targets the mode is not changed.

#![deny(missing_docs)]
#![warn(clippy::pedantic)]
#![allow(
    clippy::cast_possible_truncation,
    clippy::must_use_candidate,
    clippy::missing_errors_doc
)]

mod ffi;
mod field;
mod floor;
mod mode;
mod options;
mod product;
mod refine;
mod refusal;
pub mod simons_godf;
mod solve;
mod version;
mod words;

pub use field::{count_singularities, probe, singularities, Probe, Singularity, Valence};
pub use floor::Floor;
pub use options::{BoundaryMode, Guidance, Options};
pub use product::{vertex_lists, vertex_product, Matrix};
pub use refine::{flagged, refine, Refined};
pub use refusal::{Place, Refusal};
pub use solve::{answer, Counts, Field, Lengths, Lent, Workspace, MOST_POINTS, MOST_TRIANGLES};
pub use version::{library_version, VERSION};
