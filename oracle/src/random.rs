//! Seeded numbers (splitmix64), and doubles of many kinds.

pub struct Random(u64);

impl Random {
    pub fn new(seed: u64) -> Self {
        Self(seed)
    }

    pub fn bits(&mut self) -> u64 {
        self.0 = self.0.wrapping_add(0x9e37_79b9_7f4a_7c15);
        let mut z = self.0;
        z = (z ^ (z >> 30)).wrapping_mul(0xbf58_476d_1ce4_e5b9);
        z = (z ^ (z >> 27)).wrapping_mul(0x94d0_49bb_1331_11eb);
        z ^ (z >> 31)
    }

    /// A whole number below n.
    pub fn below(&mut self, n: usize) -> usize {
        (self.bits() % n as u64) as usize
    }

    /// True one time in n.
    pub fn one_in(&mut self, n: usize) -> bool {
        self.below(n) == 0
    }

    /// From 0 up to 1.
    pub fn unit(&mut self) -> f64 {
        (self.bits() >> 11) as f64 / (1u64 << 53) as f64
    }

    pub fn between(&mut self, low: f64, high: f64) -> f64 {
        low + (high - low) * self.unit()
    }

    pub fn sign(&mut self) -> f64 {
        if self.one_in(2) {
            1.0
        } else {
            -1.0
        }
    }

    /// x, or a neighbour of x up to `far` patterns away.
    pub fn near(&mut self, x: f64, far: usize) -> f64 {
        let step = self.below(2 * far + 1) as i64 - far as i64;
        f64::from_bits((x.to_bits() as i64).wrapping_add(step) as u64)
    }

    /// A size of any order of magnitude between 10^low and 10^high.
    pub fn scale(&mut self, low: f64, high: f64) -> f64 {
        10f64.powf(self.between(low, high))
    }

    pub fn pick<T: Copy>(&mut self, from: &[T]) -> T {
        from[self.below(from.len())]
    }

    /// One of these, or a neighbour of it.
    pub fn near_one(&mut self, from: &[f64], far: usize) -> f64 {
        let x = self.pick(from);
        self.near(x, far)
    }

    /// Any pattern at all, special values among them more often than by chance.
    pub fn any(&mut self) -> f64 {
        const SPECIAL: [f64; 14] = [
            0.0,
            -0.0,
            1.0,
            -1.0,
            f64::INFINITY,
            f64::NEG_INFINITY,
            f64::NAN,
            f64::MIN_POSITIVE,
            -f64::MIN_POSITIVE,
            5e-324,
            -5e-324,
            f64::MAX,
            f64::MIN,
            0.5,
        ];
        if self.one_in(5) {
            self.pick(&SPECIAL)
        } else {
            f64::from_bits(self.bits())
        }
    }
}
