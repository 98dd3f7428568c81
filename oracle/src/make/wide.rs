//! Random cases beyond the small ones: sets, blocks and packs up to their limits, and edges of any spacing.
use super::faults::sometimes;
use super::{blocks, lookup, pack, points, rest, spacing};
use crate::case::{Block, BlockRun, Case, Edges, FORMS, Form, Lookup, Points, PointsRun, Rest};
use crate::family::Family;
use crate::model::grid::squared_distance;
use crate::model::points::pair;
use crate::model::state::Pair;
use crate::rng::Rng;

/// Numbers of a pair looked at before the edges are made.
const SAMPLE: usize = 12;

pub fn lookup(rng: &mut Rng, wanted_regular: bool) -> Case {
    let sample = Family::any(rng).list(rng, SAMPLE);
    let mut edges = spacing::edges(rng, &sample, 256);
    while matches!(edges, Edges::Regular { .. }) != wanted_regular {
        edges = spacing::edges(rng, &sample, 256);
    }
    let value = match rng.below(8) {
        0 => Family::any(rng).number(rng),
        _ => lookup::near_a_mark(rng, &edges),
    };
    Case::Lookup(Lookup { edges, value })
}

/// A call of the pack operation, of up to 4,096 numbers a pack.
pub fn pack(rng: &mut Rng, operation: usize) -> Case {
    let tops = [4, 4, 4, 4, 32, 32, 256];
    let (top, most) = (*rng.pick(&tops), 16 * *rng.pick(&tops));
    let kind = pack::kind(*rng.pick(&FORMS), rng.within(1, top));
    let most = (most / kind.size()).max(1);
    let states = match rng.below(8) {
        0 => most,
        _ => rng.within(1, most),
    };
    pack::of_shape(rng, operation, kind, states)
}

/// What a run takes beside its data; edges are made around the sample's numbers.
fn rest(rng: &mut Rng, subtract: bool, sample: &[(f64, f64)]) -> Rest {
    let (distances, values): (Vec<f64>, Vec<f64>) = sample.iter().copied().unzip();
    let form = *rng.pick(&FORMS);
    let distance = spacing::edges(rng, &distances, 256);
    let value = match form {
        Form::Histogram => spacing::edges(rng, &values, 4096 / distance.bins()),
        _ => Edges::Irregular(Vec::new()),
    };
    let mut rest = rest::fitting(form, distance, value, 0);
    let len = rest.pack.slice.len() + rng.below(3);
    rest.pack.slice = match rng.below(3) {
        0 => Family::any(rng).list(rng, len),
        _ => vec![0.0; len],
    };
    rest.subtract = subtract;
    rest
}

/// How many points: around 6, 20 and 32, where a run changes its way, and now and then some hundred.
fn count(rng: &mut Rng) -> usize {
    match rng.below(100) {
        0..45 => rng.within(5, 22),
        45..75 => rng.within(18, 36),
        75..93 => rng.within(30, 100),
        93..98 => rng.within(100, 200),
        98 => rng.within(250, 270),
        _ if rng.once_in(100) => *rng.pick(&[1024, 2048, 4095, 4096]),
        _ => rng.within(200, 600),
    }
}

/// The sizes of two sets: often few points with many.
fn counts(rng: &mut Rng) -> (usize, usize) {
    match rng.below(40) {
        0..10 => (rng.within(1, 4), rng.within(200, 600)),
        10..14 => (count(rng), rng.within(1, 4)),
        14 if rng.once_in(20) => (rng.within(1, 9), rng.within(4000, 4096)),
        _ => (count(rng), count(rng)),
    }
}

fn set(rng: &mut Rng, count: usize) -> Points {
    let stride = match rng.below(6) {
        0 => Some(count),
        1 => Some(count + rng.below(9)),
        2 if rng.once_in(200) => Some(8192),
        _ => None,
    };
    let len = 3 * stride.unwrap_or(count);
    let mut list = |len: usize| Family::any(rng).list(rng, len);
    Points {
        count,
        stride,
        positions: list(len),
        values: list(len),
        weights: list(count),
    }
}

pub fn points(rng: &mut Rng, cross: bool) -> Case {
    let (a, b) = match cross {
        true => counts(rng),
        false => (count(rng), 0),
    };
    let mut run = PointsRun {
        a: set(rng, a),
        b: cross.then(|| set(rng, b)),
        rest: rest::small(Form::SumMean),
    };
    run.rest.subtract = rng.once_in(2);
    let last = if cross { b } else { a };
    let sample: Vec<_> = (0..SAMPLE)
        .map(|_| pair(&run, rng.below(a), rng.below(last)))
        .map(|(distance, pair)| (distance, pair.value(Form::SumMean)))
        .collect();
    run.rest = rest(rng, run.rest.subtract, &sample);
    if rng.once_in(3) {
        let faults = points::faults(run.rest.form, cross, rng.once_in(2));
        sometimes(rng, &mut run, &faults);
    }
    Case::Points(run)
}

/// Shapes of 4,096 cells, the largest that are worth their time.
const LARGEST: [[usize; 3]; 4] = [[64, 64, 1], [1, 64, 64], [16, 16, 16], [8, 8, 64]];

fn shape(rng: &mut Rng) -> [usize; 3] {
    let mut shape = [0; 3].map(|_| rng.within(1, 4));
    match rng.below(16) {
        0 => {
            shape = [0; 3].map(|_| rng.within(1, 2));
            shape[rng.below(3)] = rng.within(20, 64);
        }
        1..3 => shape[rng.below(3)] = rng.within(5, 12),
        3 => shape = [0; 3].map(|_| rng.within(3, 8)),
        4 if rng.once_in(3000) => shape = *rng.pick(&LARGEST),
        _ => {}
    }
    shape
}

/// A block at the place, of numbers of two families.
fn block(rng: &mut Rng, offsets: [i64; 3]) -> Block {
    let (value, weight) = (Family::any(rng), Family::any(rng));
    let shape = shape(rng);
    let pad = match rng.below(500) {
        0 => rng.within(100, 4000),
        _ => rng.below(3),
    };
    let number = |place: usize| match place % 7 {
        3 => weight.number(rng),
        _ => value.number(rng),
    };
    Block {
        offsets,
        ..blocks::block(shape, pad, number)
    }
}

/// The squared distance at an offset, and the value of two cells wherever they lie.
fn cells(rng: &mut Rng, x: &BlockRun) -> (f64, f64) {
    let b = x.b.as_ref().unwrap_or(&x.a);
    let range = |k: usize| x.a.shape[k] + b.shape[k] - 1;
    let d = [0, 1, 2].map(|k| rng.below(range(k)) as i64 - (x.a.shape[k] as i64 - 1));
    let mut read = |from: &Block| {
        let at = rng.below(from.weights.len());
        ([0, 1, 2].map(|k| from.components[k][at]), 1.0)
    };
    let pair = Pair::new(x.rest.subtract, read(&x.a), read(b));
    let distance = squared_distance(&x.a, &x.b, &x.widths, d);
    (distance, pair.value(Form::SumMean))
}

pub fn blocks(rng: &mut Rng, cross: bool) -> Case {
    let far = *rng.pick(&[2, 2, 2, 2, 2, 500_000]);
    let mut offset = |spread: usize| rng.below(2 * spread + 1) as i64 - spread as i64;
    let base = [0; 3].map(|_| offset(far));
    let step = [offset(far).abs(), offset(far), offset(far)];
    let mut run = BlockRun {
        a: block(rng, base),
        b: cross.then(|| block(rng, [0, 1, 2].map(|k| base[k] + step[k]))),
        widths: blocks::random_widths(rng),
        rest: rest::small(Form::SumMean),
    };
    run.rest.subtract = rng.once_in(2);
    let sample: Vec<_> = (0..SAMPLE).map(|_| cells(rng, &run)).collect();
    run.rest = rest(rng, run.rest.subtract, &sample);
    if rng.once_in(3) {
        let faults = blocks::faults(run.rest.form, cross, rng.once_in(2));
        sometimes(rng, &mut run, &faults);
    }
    Case::Blocks(run)
}
