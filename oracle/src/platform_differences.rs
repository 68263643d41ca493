//! The reference over its platform's own sine, cosine and arctangent beside the reference over ours, on whole solves: how often and
//! by how much the answers differ.

use crate::{
    case::Case,
    outcome::{expected, Answer, Given, MARK},
    shrink::shrink,
    solves::{calls, named},
    BOUND, PLATFORM,
};
use std::{collections::BTreeMap, f64::consts::FRAC_PI_2};

/// Angles of many cases: how many, how many differ, and the histogram and the greatest of their distances.
#[derive(Default)]
struct Angles {
    all: usize,
    differ: usize,
    /// 1 unit in the last place, to 10, to 100, .. and beyond a million.
    units: [usize; 8],
    /// The distance on the circle of pi/2, where 0 and pi/2 are one direction of a cross: to 1e-15, 1e-12, 1e-9, 1e-6, 1e-3, and beyond.
    turns: [usize; 6],
    /// The same of the farthest angle of each solve that differs.
    solves: [usize; 6],
    farthest: f64,
}

impl Angles {
    /// Adds a pair of angles; their distance as a turn.
    fn add(&mut self, a: f64, b: f64) -> f64 {
        self.all += 1;
        if a.to_bits() == b.to_bits() {
            return 0.0;
        }
        self.differ += 1;
        let units = a.to_bits().abs_diff(b.to_bits());
        let place = (1..8).find(|&k| units <= 10u64.pow(k as u32 - 1)).unwrap_or(8) - 1;
        self.units[place] += 1;
        let far = (a - b).abs();
        let turn = far.min(FRAC_PI_2 - far);
        self.turns[far_place(turn)] += 1;
        self.farthest = self.farthest.max(turn);
        turn
    }
}

fn far_place(turn: f64) -> usize {
    [1e-15, 1e-12, 1e-9, 1e-6, 1e-3]
        .iter()
        .position(|&most| turn <= most)
        .unwrap_or(5)
}

pub fn run(count: u64, seed: u64) {
    let (mut tried, mut same, mut angles) = (0, 0, Angles::default());
    let mut others: BTreeMap<String, usize> = BTreeMap::new();
    let (mut both, mut only_angles) = (0, 0);
    let mut smallest: Option<Case> = None;
    for case in calls(count, seed) {
        let (ours, theirs) = (expected(BOUND, &case), expected(PLATFORM, &case));
        tried += 1;
        let accepted = |g: &Given| matches!(g.answer, Answer::Accepted { .. });
        if ours.answer != theirs.answer {
            let counts = accepted(&ours) && accepted(&theirs);
            let what = if counts {
                "flagged or cut counts differ".to_string()
            } else {
                format!("{} became {}", named(&ours), named(&theirs))
            };
            *others.entry(what).or_default() += 1;
            continue;
        }
        both += usize::from(accepted(&ours));
        let before = angles.differ;
        let mut farthest = 0f64;
        for (a, b) in pairs(&ours, &theirs) {
            farthest = farthest.max(angles.add(a, b));
        }
        if angles.differ > before {
            only_angles += 1;
            angles.solves[far_place(farthest)] += 1;
            if farthest > 1e-3 && case.tris.len() < smallest.as_ref().map_or(usize::MAX, |c| c.tris.len()) {
                smallest = Some(case);
            }
        } else {
            same += 1;
        }
    }
    println!("{tried} solves, seed {seed}: {same} equal in every bit");
    println!("{both} accepted by both with the same counts, of which {only_angles} differ in angles");
    println!("{} angles, {} differ", angles.all, angles.differ);
    println!(
        "in units in the last place, 1, to 10, to 100, to 1,000, to 1e4, to 1e5, to 1e6, beyond: {:?}",
        angles.units
    );
    println!(
        "as turns of the cross, to 1e-15, 1e-12, 1e-9, 1e-6, 1e-3, beyond: {:?}; the greatest {:e}",
        angles.turns, angles.farthest
    );
    println!("the farthest angle of each such solve, likewise: {:?}", angles.solves);
    for (what, times) in others {
        println!("{times:6} {what}");
    }
    if let Some(case) = smallest {
        let small = shrink(&case, &|c| farthest(c) > 1e-3, 2000);
        let (ours, theirs) = (expected(BOUND, &small), expected(PLATFORM, &small));
        println!("a small one that turns by more than 1e-3:\n{small}");
        println!(
            "ours {:?} {:?}\ntheirs {:?} {:?}",
            ours.coarse, ours.fine, theirs.coarse, theirs.fine
        );
    }
}

/// By how much the farthest angle turns; 0 where the answers are not both accepted with the same counts.
fn farthest(case: &Case) -> f64 {
    let (ours, theirs) = (expected(BOUND, case), expected(PLATFORM, case));
    if ours.answer != theirs.answer {
        return 0.0;
    }
    let far = pairs(&ours, &theirs).map(|(a, b)| (a - b).abs());
    far.map(|d| d.min(FRAC_PI_2 - d)).fold(0.0, f64::max)
}

/// The angles of both, coarse and fine.
fn pairs<'a>(ours: &'a Given, theirs: &'a Given) -> impl Iterator<Item = (f64, f64)> + 'a {
    let all = |g: &'a Given| g.coarse.iter().chain(&g.fine).copied();
    all(ours).zip(all(theirs)).filter(|(a, _)| *a != MARK)
}
