//! Calls whose outcome is known (known.txt): document 01's example of each row, the smallest input found for each reason of row 24, and
//! calls that come to -0 or meet a NaN on the way.

use crate::{
    case::{parse, Case},
    outcome::{expected, Answer, Given},
    BOUND,
};

/// A call, the number, reason and pass that it comes to, and what else is said of it.
struct Known<'a> {
    case: Case,
    told: [u32; 3],
    also: Vec<&'a str>,
}

fn block(text: &str) -> Known<'_> {
    let (head, body) = text.split_once('\n').expect("a head and a body");
    let (outcome, _) = head.split_once(':').expect("an outcome in the head");
    let words: Vec<&str> = outcome.split_whitespace().collect();
    let (numbers, also) = words.split_at(3);
    let told: Vec<u32> = numbers.iter().map(|w| w.parse().expect("a whole number")).collect();
    Known {
        case: parse(body).unwrap_or_else(|error| panic!("known.txt: {error}")),
        told: told.try_into().expect("number, reason and pass"),
        also: also.to_vec(),
    }
}

/// Whether an angle of the answer is -0.
pub fn has_minus_zero(given: &Given) -> bool {
    let mut angles = given.coarse.iter().chain(&given.fine);
    angles.any(|angle| angle.to_bits() == (-0.0f64).to_bits())
}

/// Whether a NaN arises inside a solve: in a system of equations, or in its solution.
pub fn meets_nan(case: &Case) -> bool {
    let nan = |pairs: &[[f64; 2]]| pairs.iter().flatten().any(|x| x.is_nan());
    (BOUND.solve_keeping)(case).1.systems.iter().any(|s| {
        let solution = (BOUND.conjugate_gradient)(s).map_or(vec![], |(x, _)| x);
        s.diagonal.iter().any(|x| x.is_nan()) || nan(&s.off) || nan(&s.rhs) || nan(&solution)
    })
}

/// All of them. Panics where the reference comes to something else.
pub fn cases() -> Vec<Case> {
    let blocks = include_str!("../known.txt").split("\n= ").skip(1);
    let known = blocks.map(|text| {
        let Known { case, told, also } = block(text);
        let given = expected(BOUND, &case);
        let came = match given.answer {
            Answer::Accepted { .. } => [0; 3],
            Answer::Refused(r) => [r.number, r.reason, r.pass],
        };
        assert!(
            came == told,
            "known.txt says {told:?}, and the reference comes to {came:?}:\n{case}"
        );
        for word in also {
            let holds = match word {
                "-0" => has_minus_zero(&given),
                "NaN" => meets_nan(&case),
                _ => panic!("known.txt: no such word: {word}"),
            };
            assert!(holds, "known.txt says {word}, and the reference does not:\n{case}");
        }
        case
    });
    known.collect()
}
