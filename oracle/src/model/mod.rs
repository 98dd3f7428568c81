//! Document 01 as a plain model, slow and obvious; it shares no code with the Rust.
pub mod bins;
pub mod grid;
mod limits;
mod pack;
pub mod points;
pub mod rules;
pub mod state;

use crate::answer::Answer;
use crate::case::{Case, Segments};

/// What document 01 says of a case.
pub fn model(case: &Case) -> Answer {
    match refusal(case) {
        0 => answer(case),
        number => Answer::Refused(number),
    }
}

/// The first number that the call meets, 7 before all others; 0 for none.
pub fn refusal(case: &Case) -> u64 {
    if limits::exceeded(case) {
        7
    } else {
        rules::first(case)
    }
}

/// The answer of a call that meets no number.
fn answer(case: &Case) -> Answer {
    match case {
        Case::Lookup(x) => Answer::Found(bins::find(&x.edges, x.value)),
        Case::Segments(x) => segments(x),
        Case::Reset(x) => Answer::Slice(pack::reset(x)),
        Case::Merge(x) => Answer::Slice(pack::merge(x)),
        Case::Consolidation(x) => Answer::Slice(pack::consolidation(x)),
        Case::Result(x) => Answer::Slice(pack::result(x)),
        Case::Points(x) => Answer::Slice(points::run(x)),
        Case::Blocks(x) => Answer::Slice(grid::run(x)),
        Case::Offsets(x) => Answer::Listing(grid::listing(x)),
    }
}

/// Closed form: the first `remainder` segments are one longer than the others.
fn segments(x: &Segments) -> Answer {
    let quotient = x.indices / x.segments;
    let remainder = x.indices % x.segments;
    let start = x.index * quotient + x.index.min(remainder);
    let len = quotient + (x.index < remainder) as usize;
    Answer::Bounds(start, start + len)
}
