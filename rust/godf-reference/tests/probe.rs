//! The drop-in's probe, which passes over triangles before it asks the library, beside the reference's: at places inside, on edges and
//! corners, a little outside, and far away, on plain floors and on wild ones.

use godf::simons_godf;
use oracle::{outcome::same, random::Random, BOUND};

const FLOORS: usize = 4000;
const PLACES: usize = 25;
const SEED: u64 = 14;

struct Floor {
    points: Vec<[f64; 3]>,
    triangles: Vec<[usize; 3]>,
    angles: Vec<f64>,
}

/// Up to 12 points and 12 triangles between any of them, so that triangles overlap and some are flat. In wild floors some coordinates are
/// any numbers at all, and some corners are no points.
fn floor(r: &mut Random) -> Floor {
    let n = 3 + r.below(10);
    let wild = r.one_in(3);
    let scale = if r.one_in(4) { r.scale(-160.0, 160.0) } else { 1.0 };
    let whole = r.one_in(2);
    let coordinate = |r: &mut Random| {
        if wild && r.one_in(8) {
            return r.any();
        }
        let x = r.between(-4.0, 4.0);
        scale * if whole { x.round() } else { x }
    };
    let corner = |r: &mut Random| {
        if wild && r.one_in(20) {
            r.bits() as usize
        } else {
            r.below(n)
        }
    };
    // opposite angles, so that directions cancel now and then
    let step = std::f64::consts::TAU / 12.0;
    let plain = r.one_in(2);
    let angle = |r: &mut Random| {
        if plain {
            r.between(-2.0, 2.0)
        } else {
            step * r.below(5) as f64
        }
    };
    Floor {
        points: (0..n).map(|_| [coordinate(r), coordinate(r), 0.0]).collect(),
        triangles: (0..1 + r.below(12))
            .map(|_| [corner(r), corner(r), corner(r)])
            .collect(),
        angles: (0..n).map(|_| angle(r)).collect(),
    }
}

/// A place at or near a triangle of the floor, or anywhere.
fn place(r: &mut Random, floor: &Floor) -> [f64; 2] {
    let corners = r.pick(&floor.triangles).map(|v| floor.points.get(v).copied());
    let [Some(a), Some(b), Some(c)] = corners else {
        return [r.any(), r.any()];
    };
    // about the tolerance of a weight, which is 1e-12
    let little = |r: &mut Random| r.sign() * r.scale(-14.0, -10.0);
    let part = |r: &mut Random| match r.below(4) {
        0 => 0.0,
        1 => little(r),
        2 => 1.0 + little(r),
        _ => r.between(0.0, 1.0),
    };
    let (u, mut v) = (part(r), part(r));
    if r.one_in(3) {
        v = 1.0 - u + if r.one_in(2) { little(r) } else { 0.0 };
    }
    match r.below(10) {
        0 => [r.any(), r.any()],
        1 => [r.sign() * r.scale(0.0, 300.0), r.sign() * r.scale(0.0, 300.0)],
        _ => [0, 1].map(|i| a[i] + u * (b[i] - a[i]) + v * (c[i] - a[i])),
    }
}

#[test]
fn probes() {
    let mut r = Random::new(SEED);
    let (mut angles, mut none) = (0, 0);
    for k in 0..FLOORS {
        let floor = floor(&mut r);
        for _ in 0..PLACES {
            let p = place(&mut r, &floor);
            let wanted = (BOUND.interp_angle)(&floor.angles, &floor.points, &floor.triangles, p);
            let angle = simons_godf::interp_angle(&floor.angles, &floor.points, &floor.triangles, p);
            assert!(
                same(angle, wanted),
                "floor {k} at {p:?}: {angle} and not {wanted}\n{:?}\n{:?}\n{:?}",
                floor.points,
                floor.triangles,
                floor.angles
            );
            angles += usize::from(angle.is_finite());
            none += usize::from(angle.is_nan());
        }
    }
    println!("{angles} angles, {none} places without one");
    assert!(angles > FLOORS * PLACES / 3 && none > FLOORS * PLACES / 10);
}

/// Faults of the angles.
#[test]
fn faults() {
    let points = [[0.0, 0.0, 0.0], [1.0, 0.0, 0.0], [0.0, 1.0, 0.0]];
    let probe = |angles: &[f64]| simons_godf::interp_angle(angles, &points, &[[0, 1, 2]], [0.2, 0.2]);
    assert_eq!(probe(&[0.25; 3]), 0.25);
    for angles in [
        &[0.25; 2][..],
        &[0.25; 4],
        &[0.25, f64::NAN, 0.25],
        &[0.25, 131_073.0, 0.25],
    ] {
        assert!(probe(angles).is_nan());
    }
}
