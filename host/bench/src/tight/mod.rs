//! The tightest safe Rust that gives the same bits, for multiplied pairs only: whole calls, and without the checks.
mod blocks;
mod checks;
mod lookup;
mod points;
mod sum;

use crate::case::{Case, Sets};
use entries::{Edges, Kind};
use lookup::{Hinted, Lookup, Regular, Searched};
use sum::{Histogram, Means, Sum};

/// From how many pairs on a table of hints pays.
const HINTS_PAY: usize = 5_000;

fn fill<L: Lookup, S: Sum>(case: &Case, lookup: &L, mut sum: S, pack: &mut [f64]) {
    match &case.sets {
        Sets::Points(a, b) => points::fill(a, b.as_ref(), lookup, &mut sum),
        Sets::Blocks(a, b, width) => blocks::fill(a, b.as_ref(), *width, lookup, &mut sum),
    }
    sum.add_to(pack);
}

fn by_distance<S: Sum>(case: &Case, sum: S, pack: &mut [f64]) {
    match case.run.distance {
        Edges::Regular { min, max, n } => fill(case, &Regular::new(min, max, n), sum, pack),
        Edges::Irregular(list) => match &case.sets {
            Sets::Points(..) if case.pairs() >= HINTS_PAY => {
                fill(case, &Hinted::new(list), sum, pack)
            }
            _ => fill(case, &Searched::new(list), sum, pack),
        },
    }
}

/// A whole call: nothing is done where it is refused.
pub fn tight(case: &Case, pack: &mut [f64]) {
    if checks::accepted(case, pack.len()) {
        unchecked(case, pack);
    }
}

/// The run without a check of its arguments; one code for both, since two differ by their places in memory.
#[inline(never)]
pub fn unchecked(case: &Case, pack: &mut [f64]) {
    let states = case.run.shape.states;
    match case.run.kind {
        Kind::ComponentSumMean => by_distance(case, Means::new(states), pack),
        Kind::ComponentSumHistogram(Edges::Regular { min, max, n }) => {
            let value = Regular::new(min, max, n);
            by_distance(case, Histogram::new(states, value, n), pack)
        }
        Kind::ComponentSumHistogram(Edges::Irregular(list)) => {
            let n = list.len() - 1;
            if case.pairs() >= HINTS_PAY {
                by_distance(case, Histogram::new(states, Hinted::new(list), n), pack)
            } else {
                by_distance(case, Histogram::new(states, Searched::new(list), n), pack)
            }
        }
        Kind::Comp0Mean => unreachable!("not timed"),
    }
}
