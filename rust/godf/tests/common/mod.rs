//! Random calls. The same seed gives the same calls.
#![allow(dead_code)]

use godf::{BoundaryMode, Floor, Guidance, Options};

/// Seeded numbers (splitmix64).
pub struct Random(u64);

impl Random {
    pub fn new(seed: u64) -> Self {
        Self(seed)
    }

    pub fn bits(&mut self) -> u64 {
        self.0 = self.0.wrapping_add(0x9e37_79b9_7f4a_7c15);
        let mut z = self.0;
        z = (z ^ (z >> 30)).wrapping_mul(0xbf58_476d_1ce4_e5b9);
        z = (z ^ (z >> 27)).wrapping_mul(0x94d0_49bb_1331_11eb);
        z ^ (z >> 31)
    }

    /// A whole number below n.
    pub fn below(&mut self, n: usize) -> usize {
        (self.bits() % n as u64) as usize
    }

    pub fn one_in(&mut self, n: usize) -> bool {
        self.below(n) == 0
    }

    pub fn between(&mut self, low: f64, high: f64) -> f64 {
        low + (high - low) * ((self.bits() >> 11) as f64 / (1u64 << 53) as f64)
    }
}

/// A solve.
pub struct Call {
    pub points: Vec<[f64; 3]>,
    pub triangles: Vec<[u32; 3]>,
    pub sizes: Vec<f64>,
    pub options: Options,
    pub guidance: Option<Guidance>,
    pub iterations: usize,
}

impl Call {
    pub fn floor(&self) -> Floor<'_> {
        Floor {
            points: &self.points,
            triangles: &self.triangles,
            sizes: &self.sizes,
        }
    }

    /// The triangles as the reference has them.
    pub fn corners(&self) -> Vec<[usize; 3]> {
        self.triangles.iter().map(|t| t.map(|v| v as usize)).collect()
    }
}

/// A grid of `w` by `h` points, each moved by up to 0.3 of a cell, numbered row by row.
pub fn grid(r: &mut Random, w: usize, h: usize) -> (Vec<[f64; 3]>, Vec<[u32; 3]>) {
    let mut point = |x: usize, y: usize| {
        let [dx, dy] = [r.between(-0.3, 0.3), r.between(-0.3, 0.3)];
        [x as f64 + dx, y as f64 + dy, 0.0]
    };
    let points = (0..h * w).map(|i| point(i % w, i / w)).collect();
    let mut triangles = vec![];
    for i in (0..(h - 1) * w).filter(|i| i % w + 1 < w) {
        let [a, b, c, d] = [i, i + 1, i + w, i + w + 1].map(|v| v as u32);
        triangles.extend([[a, b, d], [a, d, c]]);
    }
    (points, triangles)
}

/// A call on a grid of up to 9 by 9 points with any options. One in eight has a fault.
fn call(r: &mut Random) -> Call {
    let (w, h) = (2 + r.below(8), 2 + r.below(8));
    let (points, triangles) = grid(r, w, h);
    let boundary = match r.below(3) {
        0 => BoundaryMode::None,
        1 => BoundaryMode::Tangent,
        _ => BoundaryMode::Weak(r.between(0.0, 3.0)),
    };
    let mut options = Options::new().boundary(boundary).accurate(r.one_in(3));
    if r.one_in(2) {
        options = options.adaptive(r.between(0.01, 0.3));
    }
    if r.one_in(4) {
        options = options
            .anisotropy(r.between(1.0, 3.0))
            .anisotropy_angle(r.between(0.0, 3.0));
    }
    let mut sizes: Vec<f64> = points.iter().map(|_| r.between(1.0, 1.3)).collect();
    if r.one_in(8) {
        let at = r.below(sizes.len());
        sizes[at] = -1.0;
    }
    let guided = r.one_in(4);
    let angle = |_: &[f64; 3]| r.between(0.0, 1.5);
    Call {
        guidance: guided.then(|| Guidance {
            weight: 0.5,
            angle: points.iter().map(angle).collect(),
        }),
        points,
        triangles,
        sizes,
        options,
        iterations: 100,
    }
}

/// The calls of a seed.
pub fn calls(seed: u64, count: usize) -> impl Iterator<Item = Call> {
    let mut r = Random::new(seed);
    (0..count).map(move |_| call(&mut r))
}

/// The same bits, or both a NaN.
pub fn same(a: f64, b: f64) -> bool {
    a.to_bits() == b.to_bits() || (a.is_nan() && b.is_nan())
}

pub fn same_angles(a: &[f64], b: &[f64]) -> bool {
    a.len() == b.len() && a.iter().zip(b).all(|(&a, &b)| same(a, b))
}
