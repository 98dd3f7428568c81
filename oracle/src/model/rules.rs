//! The other numbers, in document 01's order. All numbers are within the limits here.
use super::limits::required_length;
use crate::case::{
    Block, BlockRun, Case, Consolidation, Edges, Form, Kind, Merge, Offsets, Pack, Points,
    PointsRun, Rest, Segments, StateResult,
};

/// The first rule broken, 0 for none.
pub fn first(case: &Case) -> u64 {
    match case {
        Case::Lookup(x) => edges(&x.edges),
        Case::Segments(x) => segments(x),
        Case::Reset(x) => pack(&x.kind, &x.pack, 1),
        Case::Merge(x) => merge(x),
        Case::Consolidation(x) => consolidation(x),
        Case::Result(x) => result(x),
        Case::Points(x) => points_run(x),
        Case::Blocks(x) => block_run(x),
        Case::Offsets(x) => offsets(x),
    }
}

/// The first of the numbers that is not 0.
fn in_order(numbers: &[u64]) -> u64 {
    numbers.iter().copied().find(|n| *n != 0).unwrap_or(0)
}

/// The number where the rule is broken, else 0.
fn when(broken: bool, number: u64) -> u64 {
    if broken { number } else { 0 }
}

fn edges(edges: &Edges) -> u64 {
    match edges {
        Edges::Regular { min, max, n } => regular(*min, *max, *n),
        Edges::Irregular(list) => irregular(list),
    }
}

fn regular(min: f64, max: f64, n: usize) -> u64 {
    let difference = max - min;
    in_order(&[
        when(n == 0, 8),
        when(max <= min, 9),
        when(!difference.is_finite(), 10),
        when(difference / n as f64 == 0.0, 11),
    ])
}

fn irregular(list: &[f64]) -> u64 {
    let falls = |i: usize| list[i] <= list[i - 1];
    in_order(&[
        when(list.len() < 2, 12),
        when(list.iter().any(|x| !x.is_finite()), 10),
        when((1..list.len()).any(falls), 13),
    ])
}

fn segments(x: &Segments) -> u64 {
    when(x.segments == 0 || x.index >= x.segments, 26)
}

/// Whether `packs` packs of this shape fit the kind and the slice.
fn ill_shaped(kind: &Kind, pack: &Pack, packs: usize) -> bool {
    let needed = packs as u128 * (pack.states * pack.size) as u128;
    pack.states == 0
        || pack.size == 0
        || pack.size != kind.size()
        || (pack.slice.len() as u128) < needed
}

fn no_value_bins(kind: &Kind) -> bool {
    kind.form == Form::Histogram && kind.value_bins == 0
}

fn pack(kind: &Kind, pack: &Pack, packs: usize) -> u64 {
    in_order(&[
        when(no_value_bins(kind), 8),
        when(ill_shaped(kind, pack, packs), 24),
    ])
}

fn merge(x: &Merge) -> u64 {
    let unlike = x.other.states != x.pack.states || x.other.size != x.pack.size;
    in_order(&[
        pack(&x.kind, &x.pack, 1),
        when(unlike, 24),
        pack(&x.kind, &x.other, 1),
    ])
}

fn consolidation(x: &Consolidation) -> u64 {
    pack(&x.kind, &x.pack, x.packs)
}

fn result(x: &StateResult) -> u64 {
    in_order(&[
        pack(&x.kind, &x.pack, 1),
        when(x.value.len() < x.kind.size(), 24),
        when(x.index >= x.pack.states, 25),
    ])
}

fn points(set: &Points) -> u64 {
    let stride = set.stride.unwrap_or(set.count);
    let len = set.positions.len();
    in_order(&[
        when(set.count == 0, 1),
        when(set.count > stride, 2),
        when(set.values.len() != len, 3),
        when(stride != 0 && len % stride != 0, 4),
        when(len != 3 * stride, 5),
        when(set.weights.len() != set.count, 6),
    ])
}

fn block(b: &Block) -> u64 {
    let unlike = |c: &Vec<f64>| c.len() != b.weights.len();
    if b.shape.contains(&0) {
        return 14;
    }
    in_order(&[
        when(b.strides[2] != 1, 15),
        when(b.strides[0] < b.strides[1] * b.shape[1], 16),
        when(b.strides[1] < b.strides[2] * b.shape[2], 17),
        when(b.weights.len() < required_length(b), 18),
        when(b.components.iter().any(unlike), 19),
    ])
}

/// The blocks, a before b, then the widths.
fn blocks_and_widths(a: &Block, b: &Option<Block>, widths: &[f64; 3]) -> u64 {
    in_order(&[
        block(a),
        b.as_ref().map_or(0, block),
        when(widths.iter().any(|w| *w <= 0.0), 20),
    ])
}

/// Cross, and b's global offset before a's in z, y, x order.
fn reversed(a: &Block, b: &Option<Block>) -> bool {
    match b {
        None => false,
        Some(b) => {
            let differing = (0..3).find(|k| a.offsets[*k] != b.offsets[*k]);
            differing.is_some_and(|k| b.offsets[k] < a.offsets[k])
        }
    }
}

fn value_edges(rest: &Rest) -> u64 {
    match rest.form {
        Form::Histogram => edges(&rest.value),
        _ => 0,
    }
}

/// 23, then 24: shape and slice alike.
fn ending(rest: &Rest) -> u64 {
    let pack = &rest.pack;
    let unlike = pack.states != rest.distance.bins() || pack.size != rest.kind().size();
    in_order(&[
        when(rest.members != 1 || rest.teams != 1, 23),
        when(unlike || pack.slice.len() < pack.states * pack.size, 24),
    ])
}

fn points_run(x: &PointsRun) -> u64 {
    in_order(&[
        points(&x.a),
        x.b.as_ref().map_or(0, points),
        edges(&x.rest.distance),
        value_edges(&x.rest),
        ending(&x.rest),
    ])
}

fn block_run(x: &BlockRun) -> u64 {
    let lone = x.b.is_none() && x.a.shape == [1, 1, 1];
    in_order(&[
        blocks_and_widths(&x.a, &x.b, &x.widths),
        edges(&x.rest.distance),
        value_edges(&x.rest),
        when(reversed(&x.a, &x.b), 21),
        when(lone, 22),
        ending(&x.rest),
    ])
}

fn offsets(x: &Offsets) -> u64 {
    in_order(&[
        blocks_and_widths(&x.a, &x.b, &x.widths),
        when(reversed(&x.a, &x.b), 21),
    ])
}
