//! Cases: directed ones, and random ones by a seed.
mod blocks;
pub mod classes;
mod edges;
mod faults;
pub mod lists;
mod lookup;
pub mod marked;
mod pack;
mod points;
mod rest;
mod segments;
mod spacing;
mod wide;

use crate::case::{Case, NAMES};
use crate::rng::Rng;

/// How many combinations of faults are wanted.
#[derive(Clone, Copy, PartialEq, Eq)]
pub enum Extent {
    /// Each fault alone, each with all later ones, and every ordered pair.
    All,
    /// The first two of these.
    Few,
}

/// The directed cases of the operations from `NAMES[low]` to before `NAMES[high]`.
pub fn directed(low: usize, high: usize, extent: Extent) -> Vec<Case> {
    let smallest = classes::smallest().into_iter();
    let mut all: Vec<Case> = smallest.map(|(_, case)| case).collect();
    all.extend(marked::all().into_iter().map(|(case, _)| case));
    all.extend(lookup::directed(extent));
    all.extend(segments::directed());
    all.extend(pack::directed(extent));
    all.extend(points::directed(extent));
    all.extend(blocks::directed(extent));
    all.retain(|case| (low..high).contains(&case.operation()));
    all
}

/// A random case of the operation `NAMES[operation]`.
pub fn random(rng: &mut Rng, operation: usize) -> Case {
    debug_assert!(operation < NAMES.len());
    match operation {
        0 => lookup::random(rng, true),
        1 => lookup::random(rng, false),
        2 => segments::random(rng),
        3..7 => pack::random(rng, operation),
        7 | 8 => points::random(rng, operation == 8),
        9 | 10 => blocks::random(rng, operation == 10),
        _ => blocks::random_listing(rng, operation == 12),
    }
}

/// A random case of the operation that may be large; of a listing of offsets there is none.
pub fn wide(rng: &mut Rng, operation: usize) -> Case {
    match operation {
        0 | 1 => wide::lookup(rng, operation == 0),
        2 => segments::random(rng),
        3..7 => wide::pack(rng, operation),
        7 | 8 => wide::points(rng, operation == 8),
        9 | 10 => wide::blocks(rng, operation == 10),
        _ => panic!("no large case of {}", NAMES[operation]),
    }
}
