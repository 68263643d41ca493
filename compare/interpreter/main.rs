//! The definitions of crates/*/specs, run as text beside recorded answers of the reference (compare/definitions): an interpreter of the
//! part of antt that definitions are written in. It takes what `solve_of` (crates/calls/specs/Solve.antt), `pass_of`
//! (crates/pass/specs/Pass.antt) and the leaves and calls of `LEAVES` (rows.rs) reach, by resolving names, and fails with file, line and token
//! at what it does not understand.
//! `text.rs` reads files and scopes, `parse.rs` terms and patterns, `program.rs` makes code of them, `run.rs` runs it, `rows.rs` has the
//! recorded rows, `changes.rs` the one-token changes.
//!
//! What is native, and so not run as text:
//! - the library's own things that the definitions are built from (`LIBRARY` and `library_constant` in run.rs): whole numbers with `suc`,
//!   `+ - * / % ^ min max` and their three comparisons; truth values with `not`, `cond`, `&&`, `||`; lists with `∷`, `++`, `map`, `reverse`,
//!   `length`, `get_or`, `set`, `replicate`, `take`, `drop`; options and integers; and of lib.Ieee the format binary64, the five operations, the
//!   four comparisons, `neg`, `of_bits`, `to_bits`, `of_int`, `to_unsigned`, `to_signed`, `size`, `minus`, and the three forms of a value. They are not this
//!   project's definitions: doubles are the processor's, whole numbers of up to 128 bits (a larger one stops the run);
//! - `tab` (crates/linear_cells/specs/Region.antt), since its text takes n^2 steps. At the start its text is run beside the native one
//!   for lengths up to 39, and the run stops where they differ.
//!
//! All other definitions are run from their text; none is written here a second time. Two things spare time and change no value, since what a
//! definition gives is a matter of its arguments alone: results of dear calls are kept within one row, by the identity of the arguments;
//! and an argument that a definition may not read is computed where it is first read.

mod changes;
mod parse;
mod program;
mod rows;
mod run;
mod text;

use rows::{Row, Solver};
use std::{collections::BTreeMap, env, fs, path::Path, process::exit, thread};
use text::Stop;

/// Room for the deepest recursion: thousands of iterations of the linear solver, each inside of the one before.
const STACK: usize = 4 << 30;

/// At most so many differences of a kind are shown.
const SHOWN: usize = 10;

/// The lists of the folders, kind by kind. True where none differs.
fn compare(root: &Path, folders: &[&Path]) -> bool {
    let mut solver = Solver::new(root, true);
    let (definitions, files, lines) = solver.program.extent();
    println!("{definitions} definitions in {files} files, {lines} lines");
    let mut counts: Vec<(&str, usize, usize)> = vec![];
    for row in Row::all(folders, 1) {
        if counts.last().is_none_or(|c| c.0 != row.name) {
            counts.push((row.name, 0, 0));
        }
        let why = solver.try_row(&row);
        let count = counts.last_mut().expect("a kind");
        count.1 += 1;
        if !why.is_empty() {
            count.2 += 1;
            if count.2 <= SHOWN {
                println!("{} {}: {why}", row.name, count.1);
            }
        }
    }
    for (name, many, differ) in &counts {
        println!("{name} {many} compared, {differ} differ");
    }
    let of = |name: &str| counts.iter().find(|c| c.0 == name).map_or(0, |c| c.1);
    let differ: usize = counts.iter().map(|c| c.2).sum();
    println!(
        "definitions: {} passes and {} solves compared, {differ} differ",
        of("passes"),
        of("solves")
    );
    differ == 0
}

/// Two workers over the changes.
const WORKERS: usize = 2;

fn changes(root: &Path, folders: &[&Path], every: usize, most: usize, from: usize) -> bool {
    let tallies: Vec<changes::Tally> = thread::scope(|scope| {
        let worker = |k: usize| {
            let job = move || changes::run(root, folders, every, from + k, most.saturating_sub(k), WORKERS);
            thread::Builder::new()
                .stack_size(STACK)
                .spawn_scoped(scope, job)
                .expect("a thread")
        };
        let started: Vec<_> = (0..WORKERS).map(worker).collect();
        let ended = started
            .into_iter()
            .map(|w| w.join().unwrap_or_else(|cause| std::panic::resume_unwind(cause)));
        ended.collect()
    });
    let mut unnoticed: Vec<_> = tallies.iter().flat_map(|t| t.unnoticed.iter()).collect();
    unnoticed.sort();
    let reasons = reasons(root);
    let mut kinds: BTreeMap<&str, usize> = BTreeMap::new();
    for (_, name, place) in &unnoticed {
        let reason = reasons.get(name).map_or("NO REASON GIVEN", String::as_str);
        *kinds.entry(reason).or_default() += 1;
        println!("not noticed: {name} ({place}): {reason}");
    }
    let stale: Vec<_> = reasons
        .keys()
        .filter(|name| from == 0 && most == usize::MAX && !unnoticed.iter().any(|u| u.1 == **name))
        .collect();
    for name in &stale {
        println!("noticed, or no longer there, though compare/unnoticed.txt has it: {name}");
    }
    for (reason, many) in &kinds {
        println!("{many} {reason}");
    }
    let sum = |of: &dyn Fn(&changes::Tally) -> usize| tallies.iter().map(of).sum::<usize>();
    println!("changes: {} tried, {} noticed", sum(&|t| t.tried), sum(&|t| t.noticed));
    stale.is_empty() && !kinds.contains_key("NO REASON GIVEN")
}

/// The changes of compare/unnoticed.txt by their names, each with its reason.
fn reasons(root: &Path) -> BTreeMap<String, String> {
    let text = fs::read_to_string(root.join("compare/unnoticed.txt")).unwrap_or_default();
    let lines = text.lines().filter(|l| !l.is_empty() && !l.starts_with('#'));
    let parts = lines.filter_map(|l| l.split_once(' '));
    parts
        .map(|(reason, name)| (name.to_string(), reason.to_string()))
        .collect()
}

fn work(words: &[String]) -> bool {
    let words: Vec<&str> = words.iter().map(String::as_str).collect();
    match words[..] {
        ["compare", root, ref folders @ ..] => {
            let folders: Vec<&Path> = folders.iter().map(Path::new).collect();
            compare(Path::new(root), &folders)
        }
        ["changes", every, most, from, root, ref folders @ ..] => {
            let folders: Vec<&Path> = folders.iter().map(Path::new).collect();
            changes(
                Path::new(root),
                &folders,
                every.parse().unwrap_or(1),
                most.parse().unwrap_or(usize::MAX),
                from.parse().unwrap_or(0),
            )
        }
        _ => {
            eprintln!(
                "usage: definitions compare ROOT FOLDER..\n       definitions changes EVERY MOST FROM ROOT FOLDER.."
            );
            false
        }
    }
}

fn main() {
    std::panic::set_hook(Box::new(|info| {
        if info.payload().downcast_ref::<Stop>().is_none() {
            eprintln!("{info}");
        }
    }));
    let words: Vec<String> = env::args().skip(1).collect();
    let thread = thread::Builder::new().stack_size(STACK).spawn(move || work(&words));
    let good = match thread.expect("a thread").join() {
        Ok(good) => good,
        Err(cause) => {
            if let Some(Stop(message)) = cause.downcast_ref::<Stop>() {
                eprintln!("compare/definitions: {message}");
            }
            false
        }
    };
    exit(i32::from(!good))
}
