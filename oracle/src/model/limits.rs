//! Number 7: the limits that document 01 adds.
use crate::case::{Block, Case, Edges, Form, Kind, Pack, Points, Rest};

const POINTS: usize = 4_096;
const STRIDE: usize = 8_192;
const AXIS: usize = 64;
const LENGTH: usize = 65_536;
const GLOBAL_OFFSET: i64 = 1_000_000;
const BINS: usize = 256;
const PACK: u128 = 4_096;

/// Whether some number of the call is over a limit.
pub fn exceeded(case: &Case) -> bool {
    match case {
        Case::Lookup(x) => edges(&x.edges),
        Case::Segments(_) => false,
        Case::Reset(x) => kind(&x.kind) || pack(&x.pack),
        Case::Merge(x) => kind(&x.kind) || pack(&x.pack) || pack(&x.other),
        Case::Consolidation(x) => kind(&x.kind) || pack(&x.pack),
        Case::Result(x) => kind(&x.kind) || pack(&x.pack),
        Case::Points(x) => points(&x.a) || x.b.as_ref().is_some_and(points) || rest(&x.rest),
        Case::Blocks(x) => block(&x.a) || x.b.as_ref().is_some_and(block) || rest(&x.rest),
        Case::Offsets(x) => block(&x.a) || x.b.as_ref().is_some_and(block),
    }
}

fn edges(edges: &Edges) -> bool {
    edges.bins() > BINS
}

fn kind(kind: &Kind) -> bool {
    kind.form == Form::Histogram && kind.value_bins > BINS
}

/// The product is exact; nothing times a huge number is nothing.
fn pack(pack: &Pack) -> bool {
    pack.states as u128 * pack.size as u128 > PACK
}

fn points(set: &Points) -> bool {
    set.count > POINTS || set.stride.unwrap_or(set.count) > STRIDE
}

fn rest(rest: &Rest) -> bool {
    edges(&rest.distance)
        || (rest.form == Form::Histogram && edges(&rest.value))
        || pack(&rest.pack)
}

fn block(block: &Block) -> bool {
    block.shape.iter().any(|n| *n > AXIS)
        || block.strides.iter().any(|n| *n > LENGTH)
        || block
            .offsets
            .iter()
            .any(|d| *d < -GLOBAL_OFFSET || *d > GLOBAL_OFFSET)
        || (!block.shape.contains(&0) && required_length(block) > LENGTH)
}

/// For axes z, y, x within the limits: (z-1)·first stride + (y-1)·second stride + x.
pub fn required_length(block: &Block) -> usize {
    let [z, y, x] = block.shape;
    (z - 1) * block.strides[0] + (y - 1) * block.strides[1] + x
}
