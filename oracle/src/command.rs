//! What both programs do: `oracle` over the bound copy, `wrong` over the copies of wrong.txt as well.

use crate::{
    candidates::{candidate, Candidate, Copied, RUNS},
    case, linear, platform_differences, products, reasons,
    reference::Reference,
    refine_call, refinement, scalars, solves, texts, BOUND, PLATFORM,
};
use std::{env, io::Read, path::Path, process::exit};

/// A wrong copy, and the layers that are to notice it.
pub struct Copy {
    pub name: &'static str,
    pub layers: &'static str,
    pub reference: &'static Reference,
}

const USAGE: &str = "usage:
  record LAYER COUNT SEED FOLDER [COPY]   the answers to a layer's inputs, as lists; layers: scalars, refinement, linear, texts, solve
  solve CANDIDATE COUNT SEED              passes and whole solves of a candidate beside the reference
  pass CANDIDATE COUNT SEED               the same calls with threshold 0: one pass each
  try CANDIDATE < FILE                    one printed case
  notice COUNT SEED                       wrong copies and spoilt answers as candidates: is each noticed?
  notice products COUNT SEED              spoilt lists and products: is each noticed?
  refine COUNT SEED                       godf_refine beside refine_once
  products COUNT SEED                     godf_vertex_lists and godf_vertex_product beside the reference's product
  tell COUNT SEED                         what the generator's calls come to
  platform COUNT SEED                     the reference over its platform's functions, on whole solves
  reasons COUNT SEED                      a search for row 24's reasons";

fn usage() -> ! {
    eprintln!("{USAGE}");
    exit(2)
}

fn number(word: &str) -> u64 {
    word.parse().unwrap_or_else(|_| usage())
}

fn read_case() -> case::Case {
    let mut text = String::new();
    std::io::stdin().read_to_string(&mut text).expect("a case");
    case::parse(&text).unwrap_or_else(|error| {
        eprintln!("{error}");
        exit(2)
    })
}

fn record(layer: &str, reference: &Reference, count: u64, seed: u64, folder: &Path) {
    match layer {
        "scalars" => scalars::record(reference, seed, count as usize, folder),
        "linear" => linear::record(reference, seed, count as usize, folder),
        "refinement" => refinement::record(reference, seed, count as usize, folder),
        "texts" => texts::record(reference, seed, count as usize, folder),
        "solve" => crate::solve_list::record(reference, seed, count, folder),
        _ => usage(),
    }
}

/// Runs the program's words, over these copies.
pub fn run(copies: &'static [Copy]) {
    let args: Vec<String> = env::args().skip(1).collect();
    let words: Vec<&str> = args.iter().map(String::as_str).collect();
    let copy = |name: &str| copies.iter().find(|c| c.name == name).map(|c| c.reference);
    let named = |name: &str| -> Box<dyn Candidate> {
        match copy(name) {
            Some(reference) => Box::new(Copied(reference)),
            None => candidate(name).unwrap_or_else(|| {
                eprintln!("no candidate {name}");
                exit(2)
            }),
        }
    };
    std::panic::set_hook(Box::new(|info| {
        if !RUNS.get() || env::var("GODF_STOPS").is_ok() {
            eprintln!("{info}");
        }
    }));
    let good = match words[..] {
        ["record", layer, count, seed, folder] => {
            record(layer, BOUND, number(count), number(seed), Path::new(folder));
            true
        }
        ["record", layer, count, seed, folder, name] => {
            let platform = (name == "platform").then_some(PLATFORM);
            let reference = copy(name).or(platform).unwrap_or_else(|| usage());
            record(layer, reference, number(count), number(seed), Path::new(folder));
            true
        }
        ["solve", name, count, seed] => solves::compare(name, named(name), solves::calls(number(count), number(seed))),
        ["pass", name, count, seed] => solves::compare(name, named(name), solves::passes(number(count), number(seed))),
        ["try", name] => solves::attempt(named(name).as_ref(), &read_case()),
        ["notice", count, seed] => solves::notice(copies, number(count), number(seed)),
        ["notice", "products", count, seed] => products::notice(number(count), number(seed)),
        ["refine", count, seed] => refine_call::compare(number(count), number(seed)),
        ["products", count, seed] => products::compare(number(count), number(seed)),
        ["tell", count, seed] => {
            solves::tell(number(count), number(seed));
            true
        }
        ["platform", count, seed] => {
            platform_differences::run(number(count), number(seed));
            true
        }
        ["reasons", count, seed] => {
            reasons::search(number(count), number(seed));
            true
        }
        _ => usage(),
    };
    exit(i32::from(!good))
}
