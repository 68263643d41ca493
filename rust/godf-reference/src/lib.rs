//! Nothing but tests: the crate godf beside the reference over libgodf.a's own sine, cosine and arctangent, bit by bit. They need the
//! reference's source (oracle/README.md), so this package is not a default member of the workspace:
//!
//! ```text
//! cargo test --release -p godf-reference
//! ```
