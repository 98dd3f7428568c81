//! The Rust's answer to a case.
mod number;
mod pack;
mod run;
mod wrap;

use crate::answer::Answer;
use crate::case::{Block, Case, Lookup, Segments};
use pairstat_nostd_internal::{BinEdges, segment_idx_bounds};
use std::cell::Cell;
use std::panic::{AssertUnwindSafe, catch_unwind};

/// An answer, or the text of the Rust's refusal.
type Said = Result<Answer, String>;

/// The highest segment index that the Rust is asked for: it loops once for each.
pub const HIGHEST_SEGMENT: usize = 1_000_000;

thread_local! {
    static ASKING: Cell<bool> = const { Cell::new(false) };
}

/// Keeps panics of the Rust silent; any other is printed as ever.
pub fn silence_panics() {
    let usual = std::panic::take_hook();
    std::panic::set_hook(Box::new(move |info| {
        if !ASKING.get() {
            usual(info);
        }
    }));
}

/// What the Rust answers.
pub fn ask(case: &Case) -> Answer {
    if let Some(reason) = unaskable(case) {
        return Answer::NotAsked(reason);
    }
    ASKING.set(true);
    let said = catch_unwind(AssertUnwindSafe(|| put(case)));
    ASKING.set(false);
    match said {
        Ok(Ok(answer)) => answer,
        Ok(Err(text)) => Answer::Refused(number::of(&text)),
        Err(_) => Answer::Panic,
    }
}

fn put(case: &Case) -> Said {
    match case {
        Case::Lookup(x) => lookup(x),
        Case::Segments(x) => Ok(segments(x)),
        Case::Reset(x) => pack::reset(x),
        Case::Merge(x) => pack::merge(x),
        Case::Consolidation(x) => pack::consolidation(x),
        Case::Result(x) => pack::result(x),
        Case::Points(x) => run::points(x),
        Case::Blocks(x) => run::blocks(x),
        Case::Offsets(x) => run::offsets(x),
    }
}

/// Why a case can't be put to the Rust, if it can't.
fn unaskable(case: &Case) -> Option<&'static str> {
    let far = match case {
        Case::Segments(x) if x.index > HIGHEST_SEGMENT => {
            return Some("it loops once for each segment index");
        }
        Case::Blocks(x) => wraps(&x.a) || x.b.as_ref().is_some_and(wraps),
        Case::Offsets(x) => wraps(&x.a) || x.b.as_ref().is_some_and(wraps),
        Case::Consolidation(x) => x.pack.states.checked_mul(x.pack.size).is_none(),
        _ => false,
    };
    far.then_some("its numbers could wrap")
}

/// A block so far over the limits that the Rust's own arithmetic could wrap.
fn wraps(block: &Block) -> bool {
    let most = 1 << 31;
    let sizes = block.shape.iter().chain(&block.strides);
    sizes.into_iter().any(|n| *n > most)
        || block.offsets.iter().any(|d| d.unsigned_abs() > most as u64)
}

fn lookup(x: &Lookup) -> Said {
    let edges = wrap::edges(&x.edges)?;
    Ok(Answer::Found(edges.bin_index(x.value)))
}

fn segments(x: &Segments) -> Answer {
    let (start, stop) = segment_idx_bounds(x.indices, x.index, x.segments);
    Answer::Bounds(start, stop)
}
