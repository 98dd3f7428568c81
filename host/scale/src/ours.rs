//! The library's answer to a case.
use entries::{Block, Edges, Kind, Operation, PackShape, Points, Run, StateKind};
use harness::answer::Answer;
use harness::case::{self, Case, Form, Rest};

/// An answer, or what the library may never do.
pub type Said = Result<Answer, &'static str>;

/// What stands on both sides of a slice that is lent, and must stay.
const BESIDE: [f64; 8] = [1.5e-300; 8];

pub fn answer(case: &Case) -> Said {
    match case {
        Case::Lookup(x) => Ok(lookup(x)),
        Case::Segments(x) => Ok(segments(x)),
        Case::Points(x) => points(x),
        Case::Blocks(x) => blocks(x),
        Case::Offsets(_) => Err("a listing of offsets is no operation of the library"),
        _ => pack(case),
    }
}

fn refused(number: u32) -> Answer {
    Answer::Refused(u64::from(number))
}

fn lookup(x: &case::Lookup) -> Answer {
    let found = match &x.edges {
        case::Edges::Regular { min, max, n } => entries::regular_bin_index(*min, *max, *n, x.value),
        case::Edges::Irregular(list) => entries::irregular_bin_index(list, x.value),
    };
    found.map_or_else(refused, Answer::Found)
}

fn segments(x: &case::Segments) -> Answer {
    let bounds = entries::segment_idx_bounds(x.indices, x.index, x.segments);
    bounds.map_or_else(refused, |(start, stop)| Answer::Bounds(start, stop))
}

fn same_bits(one: &[f64], other: &[f64]) -> bool {
    let bits = |x: &f64| x.to_bits();
    one.iter().map(bits).eq(other.iter().map(bits))
}

/// Lends a copy of the slice to the call.
fn lent(slice: &[f64], call: impl FnOnce(&mut [f64]) -> Result<(), u32>) -> Said {
    let mut room = [&BESIDE, slice, &BESIDE].concat();
    let place = BESIDE.len()..BESIDE.len() + slice.len();
    let said = call(&mut room[place.clone()]);
    if !same_bits(&room[..place.start], &BESIDE) || !same_bits(&room[place.end..], &BESIDE) {
        return Err("it wrote beside the slice");
    }
    match said {
        Ok(()) => Ok(Answer::Slice(room[place].to_vec())),
        Err(_) if !same_bits(&room[place], slice) => Err("a refusal changed the slice"),
        Err(number) => Ok(refused(number)),
    }
}

fn shape(pack: &case::Pack) -> PackShape {
    PackShape {
        states: pack.states,
        size: pack.size,
    }
}

fn state_kind(kind: &case::Kind) -> StateKind {
    match kind.form {
        Form::Histogram => StateKind::Histogram(kind.value_bins),
        _ => StateKind::Mean,
    }
}

fn pack(case: &Case) -> Said {
    match case {
        Case::Reset(x) => {
            let kind = state_kind(&x.kind);
            lent(&x.pack.slice, |pack| {
                entries::reset_full_statepack(kind, shape(&x.pack), pack)
            })
        }
        Case::Merge(x) => {
            let (kind, other) = (state_kind(&x.kind), shape(&x.other));
            lent(&x.pack.slice, |pack| {
                let own = shape(&x.pack);
                entries::merge_full_statepacks(kind, own, other, pack, &x.other.slice)
            })
        }
        Case::Consolidation(x) => {
            let (kind, n) = (state_kind(&x.kind), x.packs);
            lent(&x.pack.slice, |packs| {
                entries::serial_consolidate_scratch_statepacks(kind, n, shape(&x.pack), packs)
            })
        }
        Case::Result(x) => {
            let (kind, own) = (state_kind(&x.kind), shape(&x.pack));
            lent(&x.value, |value| {
                entries::value_from_accum_state(kind, own, x.index, &x.pack.slice, value)
            })
        }
        _ => unreachable!("no pack operation"),
    }
}

fn edges(edges: &case::Edges) -> Edges<'_> {
    match edges {
        case::Edges::Regular { min, max, n } => Edges::Regular {
            min: *min,
            max: *max,
            n: *n,
        },
        case::Edges::Irregular(list) => Edges::Irregular(list),
    }
}

fn run(rest: &Rest) -> Run<'_> {
    Run {
        distance: edges(&rest.distance),
        kind: match rest.form {
            Form::Comp0Mean => Kind::Comp0Mean,
            Form::SumMean => Kind::ComponentSumMean,
            Form::Histogram => Kind::ComponentSumHistogram(edges(&rest.value)),
        },
        operation: match rest.subtract {
            true => Operation::Subtract,
            false => Operation::Multiply,
        },
        shape: shape(&rest.pack),
        members: rest.members as usize,
        teams: rest.teams as usize,
    }
}

fn set(p: &case::Points) -> Points<'_> {
    Points {
        positions: &p.positions,
        values: &p.values,
        weights: &p.weights,
        count: p.count,
        stride: p.stride,
    }
}

fn points(x: &case::PointsRun) -> Said {
    let (a, run) = (set(&x.a), run(&x.rest));
    lent(&x.rest.pack.slice, |pack| match &x.b {
        None => entries::points_auto(&a, &run, pack),
        Some(b) => entries::points_cross(&a, &set(b), &run, pack),
    })
}

fn block(b: &case::Block) -> Block<'_> {
    Block {
        components: [0, 1, 2].map(|k| &b.components[k][..]),
        weights: &b.weights,
        shape: b.shape,
        strides: b.strides,
        offsets: b.offsets,
    }
}

fn blocks(x: &case::BlockRun) -> Said {
    let (a, run) = (block(&x.a), run(&x.rest));
    lent(&x.rest.pack.slice, |pack| match &x.b {
        None => entries::blocks_auto(&a, x.widths, &run, pack),
        Some(b) => entries::blocks_cross(&a, &block(b), x.widths, &run, pack),
    })
}
