//! The reference as judge: copies of it, generators of inputs, recorders of its answers, and comparison of a whole solve with any
//! candidate (oracle/README.md).

pub mod candidates;
pub mod case;
pub mod cases;
pub mod command;
pub mod compare;
pub mod floors;
pub mod godf;
pub mod known;
pub mod leaves;
pub mod linear;
pub mod outcome;
pub mod platform_differences;
mod product_calls;
mod product_candidates;
pub mod products;
pub mod random;
pub mod reasons;
pub mod reference;
pub mod refine_call;
pub mod refinement;
mod refinement_calls;
pub mod refusal;
pub mod rows;
pub mod scalars;
pub mod shrink;
pub mod solve_list;
pub mod solves;
pub mod texts;
pub mod words;

/// The reference over libgodf.a's sine, cosine and arctangent: the judge.
#[allow(dead_code)]
mod bound {
    include!(concat!(env!("OUT_DIR"), "/bound.rs"));
}
/// The reference over its platform's own functions.
#[allow(dead_code)]
mod platform {
    include!(concat!(env!("OUT_DIR"), "/platform.rs"));
}

pub static BOUND: &reference::Reference = &bound::access::REFERENCE;
pub static PLATFORM: &reference::Reference = &platform::access::REFERENCE;
