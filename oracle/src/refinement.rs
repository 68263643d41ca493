//! Records the reference's refine_once on small floors, and extend_guidance on pairs of angles, over the proved leaves.
//! crates/replay_refinements replays the lists; data/README.md there says what a row holds.

use crate::{
    random::Random,
    reference::Reference,
    refinement_calls::{damage, floor, least, refusal, sides, sound, triples, Call},
    words::{word, words, List},
    BOUND,
};
use std::f64::consts::{FRAC_PI_2, FRAC_PI_4, PI};
use std::{collections::BTreeMap, path::Path};

/// How often each kind of thing was met.
type Met = BTreeMap<String, usize>;

fn met(seen: &mut Met, what: &str, holds: bool) {
    *seen.entry(what.to_string()).or_default() += usize::from(holds);
}

fn note(c: &Call, points: &[[f64; 3]], sizes: &[f64], cut: &[(usize, usize)], seen: &mut Met) {
    let tris = floor(&c.tris);
    let key = |(u, v): (usize, usize)| (u.min(v), u.max(v));
    for t in &tris {
        let marks: String = ["p", "q", "r"]
            .iter()
            .zip(sides(*t))
            .filter(|(_, s)| cut.contains(&key(*s)))
            .map(|(m, _)| *m)
            .collect();
        met(
            seen,
            &format!("pattern {}", if marks.is_empty() { "none" } else { &marks }),
            true,
        );
    }
    let sorted = |t: &[usize; 3]| {
        let mut t = *t;
        t.sort_unstable();
        t
    };
    let twice = |i: usize| (0..i).any(|j| sorted(&tris[i]) == sorted(&tris[j]));
    met(seen, "floor with a triangle twice", (0..tris.len()).any(twice));
    let holders = |s: (usize, usize)| {
        tris.iter()
            .filter(|t| sides(**t).iter().any(|&o| key(o) == key(s)))
            .count()
    };
    met(
        seen,
        "floor with a side in three triangles",
        tris.iter().any(|t| sides(*t).iter().any(|&s| holders(s) > 2)),
    );
    met(
        seen,
        "floor with a corner twice",
        tris.iter().any(|t| sides(*t).iter().any(|s| s.0 == s.1)),
    );
    let corners: Vec<f64> = tris.iter().flatten().map(|&v| c.angles[v]).collect();
    met(seen, "angle NaN", corners.iter().any(|a| a.is_nan()));
    met(seen, "angle infinite", corners.iter().any(|a| a.is_infinite()));
    let far = |&(u, v): &(usize, usize)| {
        let (a, b) = (c.angles[u], c.angles[v]);
        a.is_finite() && b.is_finite() && (a - b).is_infinite()
    };
    met(
        seen,
        "difference overflows",
        tris.iter().any(|t| sides(*t).iter().any(far)),
    );
    let exact = |t: &[usize; 3]| (BOUND.triangle_field_variation)(&c.angles, t) == c.threshold;
    met(seen, "threshold met exactly", tris.iter().any(exact));
    met(
        seen,
        "threshold met exactly, above 0",
        c.threshold > 0.0 && tris.iter().any(exact),
    );
    met(
        seen,
        "threshold -0",
        c.threshold == 0.0 && c.threshold.is_sign_negative(),
    );
    met(
        seen,
        "midpoint overflows",
        points.iter().any(|p| p[0].is_infinite() || p[1].is_infinite()),
    );
    met(seen, "size overflows", sizes.iter().any(|s| s.is_infinite()));
}

fn put(row: &mut Vec<u64>, at: usize, more: &[u64]) {
    assert!(row.len() <= at, "{} words before word {at}", row.len());
    row.resize(at, 0);
    row.extend(more);
}

fn whole(v: &[u32]) -> Vec<u64> {
    v.iter().map(|&x| u64::from(x)).collect()
}

fn refinements(of: &Reference, r: &mut Random, count: usize, folder: &Path) {
    let mut list = List::new(folder, "refinements", 256);
    let mut seen = Met::new();
    for i in 0..count {
        let mut c = sound(r);
        if i % 4 == 3 {
            let row = r.pick(&[1, 3, 4, 5, 6, 7, 8, 9, 12, 18, 18]);
            damage(r, &mut c, row);
            if r.one_in(4) {
                let row = r.pick(&[5, 6, 7, 8, 9, 12, 18]);
                damage(r, &mut c, row);
            }
        }
        let mut row: Vec<u64> = [c.points.len(), c.tris.len(), c.sizes.len(), c.angles.len()]
            .map(|k| k as u64)
            .to_vec();
        row.push(word(c.threshold));
        row.extend(c.lengths.map(|k| k as u64));
        let refused = refusal(&c);
        if let Some((number, place)) = refused {
            let name = if number == 9 {
                "5 (angles)".to_string()
            } else {
                number.to_string()
            };
            met(&mut seen, &format!("refused by row {name}"), true);
            met(&mut seen, "refused at a place above 0", place > 0);
            for (i, slice) in ["points", "sizes", "corners", "ends"].iter().enumerate() {
                met(
                    &mut seen,
                    &format!("refused by row 18, {slice}"),
                    number == 18 && c.lengths[i] < least(&c)[i],
                );
            }
            row.extend([if number == 9 { 5 } else { number }, place]);
        }
        let mut answer = [vec![], vec![], vec![], vec![]];
        if refused.is_none() {
            let (points, tris, sizes, flagged, cut) =
                (of.refine_once)(&triples(&c.points), &floor(&c.tris), &c.sizes, &c.angles, c.threshold);
            met(&mut seen, "accepted", true);
            met(&mut seen, "accepted, flagging", flagged > 0);
            met(
                &mut seen,
                "accepted, with spare room in a slice",
                c.lengths != least(&c),
            );
            note(&c, &points, &sizes, &cut, &mut seen);
            row.extend([
                0,
                0,
                points.len() as u64,
                tris.len() as u64,
                flagged as u64,
                cut.len() as u64,
            ]);
            let tris: Vec<u64> = tris.iter().flatten().map(|&v| v as u64).collect();
            let cut: Vec<u64> = cut.iter().flat_map(|&(a, b)| [a as u64, b as u64]).collect();
            answer = [words(&points.concat()), words(&sizes), tris, cut];
        }
        put(&mut row, 15, &words(&c.points));
        put(&mut row, 39, &words(&c.sizes));
        put(&mut row, 47, &words(&c.angles));
        put(&mut row, 55, &whole(&c.tris));
        for (at, part) in [70, 139, 162, 222].into_iter().zip(&answer) {
            put(&mut row, at, part);
        }
        list.row(&row);
    }
    for (what, times) in &seen {
        eprintln!("{times:6} {what}");
    }
}

fn guidance(of: &Reference, r: &mut Random, count: usize, folder: &Path) {
    let mut list = List::new(folder, "guidance", 3);
    let mut seen = Met::new();
    let angle = |r: &mut Random| match r.below(8) {
        0 => r.sign() * r.near_one(&[0.0, FRAC_PI_4, FRAC_PI_2, PI], 3),
        1 => r.sign() * r.near_one(&[131072.0, 262144.0], 2),
        2 => r.sign() * r.scale(-300.0, 6.0),
        3 => r.any(),
        _ => r.between(-FRAC_PI_2, FRAC_PI_2),
    };
    for _ in 0..count {
        let a = angle(r);
        let b = match r.below(6) {
            // fourfold directions that all but cancel: the sum's norm lies about 1e-12
            0 => a + FRAC_PI_4,
            1 => a + FRAC_PI_4 + r.sign() * r.scale(-14.0, -11.0),
            2 => a,
            _ => angle(r),
        };
        let mean = (of.extend_guidance)(&[a, b], &[(0, 1)], 3)[2];
        met(
            &mut seen,
            "mean is the lower end's angle, the ends' differing",
            word(mean) == word(a) && word(a) != word(b),
        );
        met(&mut seen, "mean is NaN", mean.is_nan());
        list.row(&words(&[a, b, mean]));
    }
    for (what, times) in &seen {
        eprintln!("{times:6} {what}");
    }
}

/// Writes both lists into a folder: `count` refinements, and twice as many midpoints of guidance.
pub fn record(of: &Reference, seed: u64, count: usize, folder: &Path) {
    let mut r = Random::new(seed);
    refinements(of, &mut r, count, folder);
    guidance(of, &mut r, 2 * count, folder);
}
