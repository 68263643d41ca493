//! The version of the library.

use crate::ffi;

/// The version of libgodf.a that this crate was written for: `GODF_VERSION` in include/godf.h, 10000 major + 100 minor + patch.
pub const VERSION: u32 = 200;

/// The version of the libgodf.a that is linked. It is [`VERSION`] unless an archive of another version was put in its place.
pub fn library_version() -> u32 {
    // SAFETY: takes nothing
    unsafe { ffi::godf_version() }
}
