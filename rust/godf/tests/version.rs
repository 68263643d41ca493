//! One version: the crate's, the header's and the archive's.

use std::{fs, path::Path};

#[test]
fn one_version() {
    let header = Path::new(env!("CARGO_MANIFEST_DIR")).join("../../include/godf.h");
    let header = fs::read_to_string(header).expect("include/godf.h");
    let line = header.lines().find(|line| line.starts_with("#define GODF_VERSION "));
    let number = line
        .and_then(|line| line.split_whitespace().nth(2))
        .expect("GODF_VERSION");
    assert_eq!(number.parse(), Ok(godf::VERSION));
    assert_eq!(godf::library_version(), godf::VERSION, "the archive that is linked");
    let part = |text: &str| text.parse::<u32>().expect("a number");
    let crates = 10_000 * part(env!("CARGO_PKG_VERSION_MAJOR"))
        + 100 * part(env!("CARGO_PKG_VERSION_MINOR"))
        + part(env!("CARGO_PKG_VERSION_PATCH"));
    assert_eq!(crates, godf::VERSION);
}
