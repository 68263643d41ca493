//! The crate's calls beside the reference, bit by bit.

mod common;

use common::{calls, floor_of, guidance_of, options_of, Call};
use godf::{simons_godf, Counts, Lent, Options, Place, Refusal, Workspace};
use oracle::{
    outcome::{expected, same, same_angles, Answer, Given, Work, MARK},
    random::Random,
    BOUND,
};

const CALLS: usize = 2000;
const SEED: u64 = 14;

/// What was compared, so that a test that compares nothing fails.
#[derive(Debug, Default)]
struct Seen {
    accepted: usize,
    refined: usize,
    refused: usize,
}

impl Seen {
    fn add(&mut self, answer: Answer) {
        match answer {
            Answer::Accepted { flagged: 0, .. } => self.accepted += 1,
            Answer::Accepted { .. } => self.refined += 1,
            Answer::Refused(_) => self.refused += 1,
        }
    }

    fn check(&self) {
        println!("{self:?}");
        assert_eq!(self.accepted + self.refined + self.refused, CALLS);
        assert!(self.accepted > CALLS / 4 && self.refined > CALLS / 10 && self.refused > CALLS / 5);
    }
}

/// A refusal's number, place, reason and pass.
type Row = (u32, Place, u32, u32);

fn row_of(refusal: Refusal) -> Row {
    (refusal.number, refusal.place, refusal.reason, refusal.pass)
}

/// The judge's refusal; its place by document 01's table.
fn judged(refusal: oracle::refusal::Refusal, points: usize) -> Row {
    let [a, b] = refusal.place.map(|p| p as usize);
    let place = match (refusal.number, refusal.reason) {
        (6 | 7 | 16 | 20 | 21, _) | (24, 4) => Place::Point(a),
        (8 | 19, _) => Place::Triangle(a),
        (17, _) if a == points => Place::AnisotropyAngle,
        (17, _) => Place::Point(a),
        (22, _) => Place::Edge(a, b),
        _ => {
            assert_eq!((a, b), (0, 0));
            Place::None
        }
    };
    (refusal.number, place, refusal.reason, refusal.pass)
}

/// The reference's answer in the crate's types.
fn answer_of(call: &Call, given: &Given) -> Result<Counts, Row> {
    match given.answer {
        Answer::Accepted { flagged, cut } => Ok(Counts { flagged, cut }),
        Answer::Refused(refusal) => Err(judged(refusal, call.points.len())),
    }
}

/// Slices of any length: the answer, and all that they hold after it.
#[test]
fn slices_of_the_caller() {
    const WORK: f64 = 3.25;
    const NUMBERS: u32 = 77;
    let mut seen = Seen::default();
    for (i, call) in calls(SEED, CALLS).enumerate() {
        let given = expected(BOUND, &call.case);
        let [coarse, fine, work, numbers] = call.case.lent();
        let (mut coarse, mut fine) = (vec![MARK; coarse], vec![MARK; fine]);
        let (mut work, mut numbers) = (vec![WORK; work], vec![NUMBERS; numbers]);
        let mut lent = Lent {
            coarse: &mut coarse,
            fine: &mut fine,
            work: &mut work,
            numbers: &mut numbers,
        };
        let guidance = guidance_of(&call.case);
        let options = Options::from(options_of(&call.case));
        let answer = lent.solve(floor_of(&call), &options, guidance.as_ref(), call.iterations());
        let answer = answer.map_err(row_of);
        assert_eq!(answer, answer_of(&call, &given), "call {i}:\n{}", call.case);
        assert!(
            same_angles(&coarse, &given.coarse),
            "coarse angles of call {i}:\n{}",
            call.case
        );
        assert!(
            same_angles(&fine, &given.fine),
            "fine angles of call {i}:\n{}",
            call.case
        );
        let left = if given.work == Work::Zeros {
            (0.0, 0)
        } else {
            (WORK, NUMBERS)
        };
        assert!(
            work.iter().all(|x| x.to_bits() == f64::to_bits(left.0)),
            "f64 work of call {i}"
        );
        assert!(numbers.iter().all(|x| *x == left.1), "u32 work of call {i}");
        seen.add(given.answer);
    }
    seen.check();
}

/// One workspace for all calls: the field, and the refined floor.
#[test]
fn workspace() {
    let mut seen = Seen::default();
    let mut workspace = Workspace::new();
    for (i, mut call) in calls(SEED, CALLS).enumerate() {
        call.case.spare = [0; 4];
        let case = &call.case;
        let given = expected(BOUND, case);
        seen.add(given.answer);
        let guidance = guidance_of(case);
        let options = Options::from(options_of(case));
        let field = workspace.solve(floor_of(&call), &options, guidance.as_ref(), call.iterations());
        let field = field.map_err(row_of);
        let wanted = answer_of(&call, &given);
        assert_eq!(field.map(|f| f.counts()), wanted, "call {i}:\n{case}");
        let (Ok(field), Ok(counts)) = (field, wanted) else {
            continue;
        };
        assert!(
            same_angles(field.first_angles(), &given.coarse),
            "first angles of call {i}:\n{case}"
        );
        let last = if counts.flagged > 0 { &given.fine } else { &given.coarse };
        assert!(
            same_angles(field.angles(), &last[..case.n()]),
            "angles of call {i}:\n{case}"
        );
        let refined = field.refined_floor(floor_of(&call)).expect("a floor that was solved");
        assert_eq!(refined.is_some(), counts.flagged > 0);
        let Some(refined) = refined else { continue };
        let angles = field.refined_angles().expect("angles of the refined floor");
        assert!(
            same_angles(angles, &given.fine[..case.n() + counts.cut]),
            "refined angles of call {i}:\n{case}"
        );
        let (points, triangles, sizes, flagged, cut) = (BOUND.refine_once)(
            &call.points,
            &case.corners(),
            &case.sizes,
            &given.coarse,
            case.options.adaptive,
        );
        assert!(
            same_angles(refined.points.as_flattened(), points.as_flattened()),
            "points of call {i}"
        );
        assert!(same_angles(&refined.sizes, &sizes), "sizes of call {i}");
        assert_eq!(refined.triangles, common::narrowed(&triangles), "triangles of call {i}");
        assert_eq!(refined.flagged, flagged);
        let ends: Vec<[u32; 2]> = cut.iter().map(|e| [e.0 as u32, e.1 as u32]).collect();
        assert_eq!(refined.cut_sides, ends, "cut sides of call {i}");
        let flags = godf::flagged(&given.coarse, &call.triangles, case.options.adaptive).expect("flags");
        let turns = |t: &[usize; 3]| (BOUND.triangle_field_variation)(&given.coarse, t) > case.options.adaptive;
        let corners = case.corners();
        let wanted: Vec<usize> = (0..corners.len()).filter(|&k| turns(&corners[k])).collect();
        assert_eq!(flags, wanted, "flagged triangles of call {i}");
    }
    seen.check();
}

/// The reference's own functions: each call by the one that it needs, and a probe and a count on its field.
#[test]
fn functions_of_the_reference() {
    let mut seen = Seen::default();
    let (mut probed, mut singular) = (0, 0);
    let mut random = Random::new(SEED);
    let mut workspace = Workspace::new();
    for (i, mut call) in calls(SEED, CALLS).enumerate() {
        call.case.spare = [0; 4];
        let case = &call.case;
        let given = expected(BOUND, case);
        seen.add(given.answer);
        let (points, tris, sizes) = (&call.points, &case.corners(), &case.sizes);
        let (options, iterations) = (options_of(case), call.iterations());
        let plain = options == simons_godf::Options::default();
        let answer = match (&guidance_of(case), plain) {
            (None, true) => simons_godf::solve(points, tris, sizes, iterations),
            (None, false) => simons_godf::solve_with_options(points, tris, sizes, &options, iterations),
            (Some(g), true) => simons_godf::solve_with_guidance(points, tris, sizes, g, iterations),
            (Some(g), false) => {
                simons_godf::solve_with_guidance_and_options(points, tris, sizes, g, &options, iterations)
            }
        };
        let counts = match answer_of(&call, &given) {
            Ok(counts) => counts,
            Err(row) => {
                let floor = floor_of(&call);
                let refusal = workspace.solve(floor, &options.into(), guidance_of(case).as_ref(), iterations);
                let refusal = refusal.expect_err("a refusal");
                assert_eq!(row_of(refusal), row, "call {i}:\n{case}");
                assert_eq!(answer, Err(refusal.to_string()), "call {i}:\n{case}");
                continue;
            }
        };
        let last = if counts.flagged > 0 { &given.fine } else { &given.coarse };
        let angles = answer.unwrap_or_else(|text| panic!("{text}: call {i}:\n{case}"));
        assert!(same_angles(&angles, &last[..case.n()]), "angles of call {i}:\n{case}");
        let [a, b, c] = tris[random.below(tris.len())].map(|v| points[v]);
        let (u, v) = (random.between(0.0, 0.5), random.between(0.0, 0.6));
        let at = [0, 1].map(|k| a[k] + u * (b[k] - a[k]) + v * (c[k] - a[k]));
        let angle = (BOUND.interp_angle)(&angles, points, tris, at);
        assert!(
            same(simons_godf::interp_angle(&angles, points, tris, at), angle),
            "probe {i}"
        );
        probed += usize::from(angle.is_finite());
        let singularities = (BOUND.count_singularities)(&angles, tris);
        assert_eq!(
            simons_godf::count_singularities(&angles, tris),
            singularities,
            "singularities {i}"
        );
        let listed: Vec<_> = godf::singularities(&angles, &call.triangles)
            .map(|s| s.valence)
            .collect();
        let of = |valence| listed.iter().filter(|v| **v == valence).count();
        assert_eq!(
            (of(godf::Valence::Three), of(godf::Valence::Five)),
            singularities,
            "listed {i}"
        );
        singular += listed.len();
    }
    seen.check();
    println!("{probed} probes with an angle, {singular} singularities");
    assert!(probed > CALLS / 3 && singular > 50);
}

/// Floors of 1,000 to 4,225 points.
#[test]
fn large_floors() {
    let mut workspace = Workspace::new();
    let mut refined = 0;
    for i in [1, 2, 3, 5, 6, 7] {
        let case = oracle::cases::large(SEED, i);
        let call = Call {
            points: case.triples(),
            triangles: common::narrowed(&case.corners()),
            case: oracle::case::Case { spare: [0; 4], ..case },
        };
        let given = expected(BOUND, &call.case);
        let guidance = guidance_of(&call.case);
        let options = Options::from(options_of(&call.case));
        let field = workspace.solve(floor_of(&call), &options, guidance.as_ref(), call.iterations());
        let field = field.map_err(row_of);
        let wanted = answer_of(&call, &given);
        assert_eq!(field.map(|f| f.counts()), wanted, "large call {i}");
        let counts = wanted.expect("a field");
        let last = if counts.flagged > 0 { &given.fine } else { &given.coarse };
        assert!(
            same_angles(field.unwrap().angles(), &last[..call.points.len()]),
            "angles of large call {i}"
        );
        refined += usize::from(counts.flagged > 0);
    }
    assert!(refined > 0);
}

/// Corners past 32 bits are no points, as in the reference.
#[test]
fn corners_past_32_bits() {
    let points = [[0.0, 0.0, 0.0], [1.0, 0.0, 0.0], [0.0, 1.0, 0.0]];
    // its lower half is the number of a point
    let far = (1 << 32) + 2;
    let text = simons_godf::solve(&points, &[[0, 1, 2], [0, 1, far]], &[1.0; 3], 10).unwrap_err();
    assert!(text.starts_with("triangle 1: a corner"), "{text}");
    let tris = [[0, 1, far], [0, 1, 2]];
    assert_eq!(simons_godf::interp_angle(&[0.25; 3], &points, &tris, [0.1, 0.1]), 0.25);
    assert_eq!(simons_godf::count_singularities(&[0.0, 0.5, 1.0], &tris), (1, 0));
}

/// The reference's signatures, as it has them.
#[test]
fn signatures() {
    type Points<'a> = &'a [[f64; 3]];
    type Triangles<'a> = &'a [[usize; 3]];
    type Angles = Result<Vec<f64>, String>;
    use simons_godf::{Guidance, Options};
    let _: fn(Points, Triangles, &[f64], usize) -> Angles = simons_godf::solve;
    let _: fn(Points, Triangles, &[f64], &Options, usize) -> Angles = simons_godf::solve_with_options;
    let _: fn(Points, Triangles, &[f64], &Guidance, usize) -> Angles = simons_godf::solve_with_guidance;
    let _: fn(Points, Triangles, &[f64], &Guidance, &Options, usize) -> Angles =
        simons_godf::solve_with_guidance_and_options;
    let _: fn(&[f64], Points, Triangles, [f64; 2]) -> f64 = simons_godf::interp_angle;
    let _: fn(&[f64], Triangles) -> (usize, usize) = simons_godf::count_singularities;
    let default = Options::default();
    assert!(!default.accurate && default.boundary == simons_godf::BoundaryMode::None);
    assert_eq!((default.holomorphic, default.anisotropy), (0.0, 1.0));
    assert_eq!((default.anisotropy_angle, default.adaptive), (0.0, 0.0));
}

/// A workspace can be handed to another thread.
#[test]
fn workspaces_travel() {
    fn travels<T: Send + Sync>() {}
    travels::<Workspace>();
    travels::<Refusal>();
}
