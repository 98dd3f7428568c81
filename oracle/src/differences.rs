//! Where the Rust and document 01 part: the classes of docs/DIFFERENCES.md, and nothing else.
use crate::answer::Answer;
use crate::case::{BlockRun, Case, Edges, Form, Kind, Lookup, Pack, PointsRun, Rest};
use crate::model::state::Pair;
use crate::model::{bins, grid, points};

/// How the Rust's answer stands to document 01's.
#[derive(Clone, Copy, PartialEq, Eq)]
pub enum Verdict {
    Same,
    /// A difference of a listed class.
    Listed(usize),
    /// The Rust can't be asked.
    NotCompared,
    /// A difference that no class has.
    Unlisted,
}

/// The number of classes.
pub const CLASSES: usize = 14;

pub fn verdict(case: &Case, model: &Answer, rust: &Answer) -> Verdict {
    if model.same(rust) {
        return Verdict::Same;
    }
    if matches!(rust, Answer::NotAsked(_)) {
        return Verdict::NotCompared;
    }
    let class = match model {
        Answer::Refused(7) => Some(14),
        Answer::Refused(number) => refused(case, *number, rust),
        _ => answered(case, rust),
    };
    class.map_or(Verdict::Unlisted, Verdict::Listed)
}

/// The class of a call that document 01 refuses.
fn refused(case: &Case, number: u64, rust: &Answer) -> Option<usize> {
    let panics = matches!(rust, Answer::Panic);
    match case {
        Case::Segments(x) if number == 26 => Some(if x.segments == 0 { 13 } else { 12 }),
        Case::Points(x) => (panics && stops(&x.rest, number)).then_some(13),
        Case::Blocks(x) => (panics && stops(&x.rest, number)).then_some(13),
        Case::Reset(x) if number == 24 => pack(&x.kind, &x.pack, panics),
        Case::Consolidation(x) if number == 24 => match x.packs {
            0 => Some(9),
            _ if panics && lacking(&x.pack, x.packs) => Some(13),
            _ => pack(&x.kind, &x.pack, panics),
        },
        Case::Merge(x) if number == 24 => {
            let unlike = x.other.states != x.pack.states || x.other.size != x.pack.size;
            match panics && lacking(&x.other, 1) {
                true => Some(13),
                false => pack(&x.kind, &x.pack, panics).or(unlike.then_some(10)),
            }
        }
        Case::Result(x) if number == 24 => {
            let short = panics && x.value.len() < x.kind.size();
            pack(&x.kind, &x.pack, panics).or(short.then_some(13))
        }
        Case::Result(_) if number == 25 => Some(11),
        _ => None,
    }
}

/// A zero in the shape, or a slice too short for so many packs.
fn lacking(pack: &Pack, packs: usize) -> bool {
    let needed = pack.states * pack.size;
    needed == 0 || pack.slice.len() / needed < packs
}

/// Class of a pack operation's 24 by the first pack.
fn pack(kind: &Kind, pack: &Pack, panics: bool) -> Option<usize> {
    if panics && lacking(pack, 1) {
        Some(13)
    } else if pack.size != kind.size() {
        Some(9)
    } else {
        None
    }
}

/// Whether a run stops in a panic where document 01 has 23 or 24.
fn stops(rest: &Rest, number: u64) -> bool {
    let none = rest.members == 0 || rest.teams == 0;
    (number == 23 || number == 24) && (none || lacking(&rest.pack, 1))
}

/// The class of a call that document 01 answers.
fn answered(case: &Case, rust: &Answer) -> Option<usize> {
    match (case, rust) {
        (Case::Lookup(x), Answer::Found(Some(index))) => lookup(x, *index),
        (Case::Reset(x), Answer::Slice(slice)) => {
            let longer = x.pack.slice.len() > x.pack.states * x.pack.size;
            let cleared = slice.iter().all(|total| total.to_bits() == 0);
            (x.kind.form == Form::Histogram && longer && cleared).then_some(8)
        }
        (Case::Points(x), Answer::Panic) => trap_of_points(x),
        (Case::Blocks(x), Answer::Panic) => trap_of_blocks(x),
        _ => None,
    }
}

/// 1 for NaN, 2 for a zero below a zero edge, where the Rust gives n or wraps to the highest index.
fn lookup(x: &Lookup, index: usize) -> Option<usize> {
    let class = irregular_trap(&x.edges, x.value)?;
    let after_all = x.value.is_nan() && x.value.is_sign_positive();
    let wrong = if after_all {
        x.edges.bins()
    } else {
        usize::MAX
    };
    (index == wrong).then_some(class)
}

/// Irregular edges that give no bin although the end tests pass: 1 NaN, 2 every edge after the value.
fn irregular_trap(edges: &Edges, value: f64) -> Option<usize> {
    let Edges::Irregular(list) = edges else {
        return None;
    };
    let passes = !(value < list[0] || value >= list[list.len() - 1]);
    if !passes || bins::find(edges, value).is_some() {
        None
    } else if value.is_nan() {
        Some(1)
    } else {
        Some(2)
    }
}

/// A value at which the Rust's histogram panics: classes 3, 4 and 5.
fn value_trap(edges: &Edges, value: f64) -> Option<usize> {
    let past = bins::find(edges, value).is_some_and(|i| i >= edges.bins());
    match irregular_trap(edges, value) {
        Some(class) => Some(class + 2),
        None => past.then_some(5),
    }
}

/// The first panic of an accepted histogram run over points.
fn trap_of_points(x: &PointsRun) -> Option<usize> {
    if x.rest.form != Form::Histogram {
        return None;
    }
    points::pairs(x).iter().find_map(|(distance, pair)| {
        if bins::kept(&x.rest.distance, *distance).is_some() {
            value_trap(&x.rest.value, pair.value(x.rest.form))
        } else if binless(&x.rest.distance, *distance) {
            value_trap(&x.rest.value, 0.0).map(|_| 6)
        } else {
            None
        }
    })
}

/// Whether the Rust's own lookup gives the distance no bin at all.
fn binless(edges: &Edges, distance: f64) -> bool {
    bins::find(edges, distance).is_none() && irregular_trap(edges, distance).is_none()
}

/// The first panic of an accepted histogram run over blocks.
fn trap_of_blocks(x: &BlockRun) -> Option<usize> {
    if x.rest.form != Form::Histogram {
        return None;
    }
    grid::offsets(&x.a, &x.b).into_iter().find_map(|d| {
        let distance = grid::squared_distance(&x.a, &x.b, &x.widths, d);
        if binless(&x.rest.distance, distance) {
            return None;
        }
        let pairs = grid::pairs(x, d);
        let trap = |pair: &Pair| value_trap(&x.rest.value, pair.value(x.rest.form));
        let class = pairs.iter().find_map(trap)?;
        let kept = bins::kept(&x.rest.distance, distance).is_some();
        Some(if kept { class } else { 7 })
    })
}
