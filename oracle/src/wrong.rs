//! The same program over copies of the reference with one line made wrong each (wrong.txt): does the comparison notice them? The
//! copies' names are candidates of `solve` and `try`, and `notice` and `record` take them.

use oracle::{
    case,
    command::{self, Copy},
    leaves, reference,
};

#[allow(dead_code, unused)]
mod copies {
    use super::Copy;
    include!(concat!(env!("OUT_DIR"), "/wrong.rs"));
}

fn main() {
    command::run(copies::COPIES);
}
