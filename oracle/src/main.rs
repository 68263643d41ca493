//! The reference as judge: records its answers as lists that the programs of crates/ replay, and compares whole solves with it
//! (oracle/README.md; the words are those of command.rs).

fn main() {
    oracle::command::run(&[]);
}
