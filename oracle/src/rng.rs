//! Splitmix64, and the numbers that cases are made of.

pub struct Rng(u64);

/// Numbers that rounding, comparing and casting treat apart.
pub const SPECIAL: [f64; 14] = [
    f64::NAN,
    -f64::NAN,
    f64::INFINITY,
    f64::NEG_INFINITY,
    0.0,
    -0.0,
    5e-324,
    -5e-324,
    f64::MIN_POSITIVE,
    f64::MAX,
    f64::MIN,
    f64::EPSILON,
    1e300,
    9007199254740993.0,
];

impl Rng {
    pub fn new(seed: u64) -> Self {
        Rng(seed)
    }

    pub fn word(&mut self) -> u64 {
        self.0 = self.0.wrapping_add(0x9e3779b97f4a7c15);
        let z = (self.0 ^ (self.0 >> 30)).wrapping_mul(0xbf58476d1ce4e5b9);
        let z = (z ^ (z >> 27)).wrapping_mul(0x94d049bb133111eb);
        z ^ (z >> 31)
    }

    /// A number below `n`, which is not 0.
    pub fn below(&mut self, n: usize) -> usize {
        (self.word() % n as u64) as usize
    }

    /// A number from `low` to `high`, both included.
    pub fn within(&mut self, low: usize, high: usize) -> usize {
        low + self.below(high - low + 1)
    }

    /// True once in `n` times.
    pub fn once_in(&mut self, n: usize) -> bool {
        self.below(n) == 0
    }

    pub fn pick<'a, T>(&mut self, from: &'a [T]) -> &'a T {
        &from[self.below(from.len())]
    }

    pub fn special(&mut self) -> f64 {
        *self.pick(&SPECIAL)
    }

    /// From 0 to 1 with all 53 bits.
    pub fn unit(&mut self) -> f64 {
        (self.word() >> 11) as f64 / (1u64 << 53) as f64
    }

    /// An everyday number: a small whole one, an eighth, or one with a full significand.
    pub fn plain(&mut self) -> f64 {
        match self.below(3) {
            0 => self.below(17) as f64 - 8.0,
            1 => (self.below(129) as f64 - 64.0) / 8.0,
            _ => self.unit() * 16.0 - 8.0,
        }
    }

    /// Plain, but now and then special.
    pub fn any(&mut self) -> f64 {
        if self.once_in(40) {
            self.special()
        } else {
            self.plain()
        }
    }

    /// Whole numbers in one list of three, else plain ones, and special ones in one of four.
    pub fn list(&mut self, len: usize) -> Vec<f64> {
        match self.below(12) {
            0..4 => (0..len).map(|_| self.below(9) as f64 - 4.0).collect(),
            4..7 => (0..len).map(|_| self.any()).collect(),
            _ => (0..len).map(|_| self.plain()).collect(),
        }
    }
}
