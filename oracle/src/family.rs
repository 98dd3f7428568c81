//! Families of numbers that a set, a block or a pack is filled with.
use crate::rng::Rng;

#[derive(Clone, Copy, PartialEq, Eq)]
pub enum Family {
    /// Small whole numbers: many equal distances, many on an edge.
    Whole,
    /// Eighths.
    Eighths,
    /// Full significands: every operation rounds.
    Full,
    /// Few places, and numbers a last place or two beside them.
    Near,
    /// Sizes far apart: the order of sums shows.
    Wide,
    /// Squares that are subnormal or vanish.
    Tiny,
    /// Squares near the largest number and over it.
    Huge,
    /// Full, with special ones among them.
    Mixed,
    /// Any bits at all.
    Bits,
}

use Family::*;

/// How often each is taken.
const OFTEN: [Family; 20] = [
    Whole, Whole, Whole, Whole, Whole, Whole, Eighths, Eighths, Full, Full, Full, Full, Near, Near,
    Wide, Wide, Tiny, Huge, Mixed, Bits,
];

impl Family {
    pub fn any(rng: &mut Rng) -> Family {
        *rng.pick(&OFTEN)
    }

    /// A number of the family.
    pub fn number(self, rng: &mut Rng) -> f64 {
        let part = |rng: &mut Rng| 2.0 * rng.unit() - 1.0;
        match self {
            Whole => rng.below(13) as f64 - 6.0,
            Eighths => (rng.below(129) as f64 - 64.0) / 8.0,
            Full => part(rng) * 8.0,
            Near => (1 + 3 * rng.below(4)) as f64 * (1.0 + rng.below(5) as f64 * f64::EPSILON),
            Wide => part(rng) * 2f64.powi(rng.below(81) as i32 - 40),
            Tiny => part(rng) * 1e-160,
            Huge => part(rng) * 1e154,
            Mixed if rng.once_in(30) => rng.special(),
            Mixed => part(rng) * 8.0,
            Bits => f64::from_bits(rng.word()),
        }
    }

    pub fn list(self, rng: &mut Rng, len: usize) -> Vec<f64> {
        (0..len).map(|_| self.number(rng)).collect()
    }
}
