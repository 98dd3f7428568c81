//! Runs over blocks, and listings of offsets.
use super::Extent;
use super::edges::{irregular, regular};
use super::faults::{Fault, lift, over, plain, shorten, sometimes, spread};
use super::rest;
use crate::case::{Block, BlockRun, Case, Edges, FORMS, Form, Offsets, Rest};
use crate::model::grid;
use crate::rng::{Rng, SPECIAL};

/// A block with `pad` unread places after each row and plane; its numbers come from `number`.
pub fn block(shape: [usize; 3], pad: usize, mut number: impl FnMut(usize) -> f64) -> Block {
    let second = shape[2] + pad;
    let first = second * shape[1] + pad;
    let strides = [first, second, 1];
    let len = (shape[0] - 1) * first + (shape[1] - 1) * second + shape[2] + pad;
    let mut column = |k: usize| (0..len).map(|i| number(7 * i + k)).collect::<Vec<_>>();
    Block {
        shape,
        strides,
        offsets: [0; 3],
        components: [column(0), column(1), column(2)],
        weights: column(3),
    }
}

/// Numbers none of which is another's.
fn tenths(shape: [usize; 3], pad: usize) -> Block {
    block(shape, pad, |i| i as f64 / 10.0 - 1.0)
}

/// The same block with NaN in every place that no cell has.
fn spoilt(mut b: Block) -> Block {
    let cells = grid::cells(&b, &b, [0; 3]);
    let read = |i: usize| cells.iter().any(|(at, _)| *at == i);
    for i in (0..b.weights.len()).filter(|i| !read(*i)) {
        b.weights[i] = f64::NAN;
        b.components.iter_mut().for_each(|c| c[i] = f64::INFINITY);
    }
    b
}

fn at(mut b: Block, offsets: [i64; 3]) -> Block {
    b.offsets = offsets;
    b
}

fn case(a: Block, b: Option<Block>, widths: [f64; 3], rest: Rest) -> Case {
    Case::Blocks(BlockRun { a, b, widths, rest })
}

/// Faults of a block: 7 five times, then 14 to 19.
fn block_faults() -> Vec<Fault<Block>> {
    let mut faults = over::<Block, 5>([
        |b| b.shape[2] = 65,
        |b| b.strides[2] = 65_537,
        |b| (b.shape[0], b.strides[0]) = (3, 65_536),
        |b| b.offsets[1] = 1_000_001,
        |b| b.offsets[0] = i64::MIN,
    ]);
    faults.extend(plain::<Block, 6>([
        |b| b.shape[1] = 0,
        |b| b.strides[2] = 2,
        |b| b.strides[0] = (b.strides[1] * b.shape[1]).saturating_sub(1),
        |b| b.strides[1] = b.shape[2] - 1,
        |b| shorten(&mut b.weights),
        |b| b.components[1].push(1.0),
    ]));
    faults
}

pub fn faults(form: Form, cross: bool, irregular: bool) -> Vec<Fault<BlockRun>> {
    let mut faults = lift(block_faults(), |x: &mut BlockRun| &mut x.a);
    if cross {
        faults.extend(lift(block_faults(), |x: &mut BlockRun| {
            x.b.as_mut().expect("a cross run")
        }));
    }
    faults.extend(plain::<BlockRun, 1>([|x| x.widths[1] = -0.0]));
    let of_pairs: fn(&mut BlockRun) = match cross {
        true => |x| x.a.offsets[2] += 1,
        false => |x| x.a.shape = [1, 1, 1],
    };
    let between = plain([of_pairs]);
    faults.extend(rest::faults(form, irregular, between, |x| &mut x.rest));
    faults
}

/// A small run of the form with every fault.
fn bad(form: Form, cross: bool, irregular: bool, extent: Extent) -> Vec<Case> {
    let shape = if cross { [1, 1, 1] } else { [1, 1, 2] };
    let a = tenths(shape, 0);
    let base = BlockRun {
        b: cross.then(|| a.clone()),
        a,
        widths: [1.0; 3],
        rest: rest::small(form),
    };
    let calls = spread(&base, &faults(form, cross, irregular), extent);
    calls.into_iter().map(Case::Blocks).collect()
}

/// Pairs of shapes: K6 to K8, and unequal ones on every axis.
const SHAPES: [([usize; 3], [usize; 3]); 9] = [
    ([1, 1, 2], [1, 1, 3]),
    ([1, 2, 2], [1, 1, 1]),
    ([1, 1, 3], [1, 1, 1]),
    ([2, 1, 1], [1, 2, 1]),
    ([1, 3, 1], [2, 1, 2]),
    ([2, 2, 1], [1, 2, 2]),
    ([2, 2, 2], [1, 1, 2]),
    ([1, 1, 1], [1, 1, 1]),
    ([1, 2, 3], [1, 3, 2]),
];

/// Every form and operation over the shapes, with padding that holds NaN.
fn plain_runs() -> Vec<Case> {
    let edges = [irregular(&[0.0, 1.0, 2.0, 5.0]), regular(0.0, 6.0, 3)];
    let value = regular(-2.0, 4.0, 3);
    let mut cases = Vec::new();
    for (i, (one, other)) in SHAPES.into_iter().enumerate() {
        let distance = edges[i % 2].clone();
        let mut rest = rest::fitting(FORMS[i % 3], distance, value.clone(), i % 2);
        rest.subtract = i / 2 % 2 == 1;
        let a = at(spoilt(tenths(one, i % 3)), [0, -5, 3]);
        let b = at(
            spoilt(block(other, i % 2, |k| 2.0 - k as f64 / 9.0)),
            [0, -5, 4],
        );
        let widths = [1.0, 0.5, 1.0];
        cases.push(case(a.clone(), None, widths, rest.clone()));
        cases.push(case(a, Some(b), widths, rest));
    }
    cases
}

/// One cell each, a cell apart on every axis, with a bin on each side of `edge`.
fn split_at(widths: [f64; 3], edge: f64) -> Case {
    let one = tenths([1, 1, 1], 0);
    let other = at(block([1, 1, 1], 0, |_| 1.0), [1; 3]);
    let distance = irregular(&[0.0, edge, 1e4]);
    let rest = rest::fitting(Form::SumMean, distance, irregular(&[]), 0);
    case(one, Some(other), widths, rest)
}

/// Widths that tell the z, y, x order of the sum from the points' and from a fused sum.
fn rounding() -> Vec<Case> {
    let mut rng = Rng::new(2);
    let mut cases = Vec::new();
    while cases.len() < 12 {
        let [z, y, x] = [0; 3].map(|_| rng.unit() * 8.0);
        let ours = (z * z + y * y) + x * x;
        let other = match cases.len() % 3 {
            0 => z * z + (y * y + x * x),
            1 => (x * x + y * y) + z * z,
            _ => x.mul_add(x, y.mul_add(y, z * z)),
        };
        if ours != other {
            cases.push(split_at([z, y, x], ours.max(other)));
        }
    }
    cases
}

/// Odd widths, and cells that hold NaN, infinities and zeros of both signs.
fn payloads() -> Vec<Case> {
    let mut cases = Vec::new();
    for (i, special) in SPECIAL.into_iter().enumerate() {
        let odd = |k: usize| {
            if k % 7 == i % 4 {
                special
            } else {
                k as f64 + 0.1
            }
        };
        let one = block([1, 1, 2], 0, odd);
        let wide = [1.0, special, 1.0];
        for (widths, distance) in [
            ([1.0; 3], regular(0.0, 2.0, 1)),
            (wide, irregular(&[0.0, 2.0])),
        ] {
            let mut rest = rest::fitting(Form::SumMean, distance, irregular(&[]), 0);
            rest.pack.slice[1] = special;
            cases.push(case(one.clone(), None, widths, rest));
        }
        let rest = rest::fitting(Form::Comp0Mean, regular(0.0, 2.0, 1), irregular(&[]), 0);
        cases.push(case(one, None, wide, rest));
    }
    cases
}

/// A histogram of two cells, whose pair has the value given.
pub fn histogram(value: f64, width: f64, distance: Edges, value_edges: Edges) -> Case {
    let mut cells = block([1, 1, 2], 0, |_| 1.0);
    cells.components[0][1] = value;
    let zero = if value == 0.0 { value } else { 0.0 };
    cells.components[1][1] = zero;
    cells.components[2][1] = zero;
    let rest = rest::fitting(Form::Histogram, distance, value_edges, 1);
    case(cells, None, [1.0, 1.0, width], rest)
}

/// Where the Rust's histogram panics, in offsets that are kept and in offsets that are dropped.
fn histograms() -> Vec<Case> {
    let under_one = 1.0f64.next_down();
    let distances = [
        (1.0, irregular(&[0.0, 2.0])),
        (f64::NAN, irregular(&[0.0, 2.0])),
        (5.0, regular(0.0, 25.0f64.next_up(), 3)),
        (9.0, irregular(&[0.0, 2.0])),
        (f64::NAN, regular(0.0, 1.0, 3)),
    ];
    let value_edges = [irregular(&[0.0, 1.0]), regular(0.0, 1.0, 3)];
    let mut cases = Vec::new();
    for (width, distance) in &distances {
        for edges in &value_edges {
            for value in [f64::NAN, -0.0, under_one, 0.5] {
                cases.push(histogram(value, *width, distance.clone(), edges.clone()));
            }
        }
    }
    cases
}

/// A run of one cell of ones at each offset, a bin up to the farthest squared distance.
fn lone_cells() -> BlockRun {
    let cell = block([1, 1, 1], 0, |_| 1.0);
    BlockRun {
        a: cell.clone(),
        b: Some(cell),
        widths: [1.0; 3],
        rest: rest::fitting(Form::SumMean, regular(0.0, 2e13, 2), irregular(&[]), 0),
    }
}

/// Global offsets in and out of order and at their limits, and the number that each pair meets.
fn placed() -> Vec<(Case, u64)> {
    let far = 1_000_000;
    let pairs = [
        ([-far; 3], [far; 3], 0),
        ([far; 3], [-far; 3], 21),
        ([0, 0, 0], [0, 0, far + 1], 7),
        ([-far - 1, 0, 0], [0, 0, 0], 7),
        ([0, 1, 0], [0, 0, 5], 21),
        ([0, 0, 1], [0, 0, 0], 21),
        ([0, 5, 5], [1, -5, -5], 0),
        ([2, 2, 2], [2, 2, 2], 0),
    ];
    let call = |(one, other, number)| {
        let mut run = lone_cells();
        run.a.offsets = one;
        run.b = run.b.map(|b| at(b, other));
        (Case::Blocks(run), number)
    };
    pairs.into_iter().map(call).collect()
}

/// Shapes and strides at the limits and over them, of a single cell's data.
fn stretched() -> Vec<(Case, u64)> {
    let layouts = [
        ([64, 1, 1], [1, 1, 1], 18),
        ([64, 64, 64], [65_536, 64, 1], 7),
        ([1, 1, 65], [65, 65, 1], 7),
        ([2, 1, 1], [65_536, 1, 1], 7),
        ([2, 1, 1], [65_535, 1, 1], 18),
        ([2, 0, 1], [65_536, 1, 1], 14),
        ([1, 1, 1], [1, 1, 65_536], 15),
        ([1, 1, 1], [1, 1, 65_537], 7),
        ([1, 1, 1], [1, 65_537, 1], 7),
        ([1, 1, 1], [usize::MAX, 1, 1], 7),
    ];
    let call = |(shape, strides, number)| {
        let mut run = lone_cells();
        (run.a.shape, run.a.strides) = (shape, strides);
        (Case::Blocks(run), number)
    };
    layouts.into_iter().map(call).collect()
}

/// Calls at the limits and over them, with the number that each meets.
pub fn limits() -> Vec<(Case, u64)> {
    let mut all = placed();
    all.extend(stretched());
    all
}

/// A listing of blocks of these shapes at the same place, with widths of 1.
pub fn listing(a: [usize; 3], b: Option<[usize; 3]>) -> Case {
    Case::Offsets(Offsets {
        a: tenths(a, 0),
        b: b.map(|shape| tenths(shape, 0)),
        widths: [1.0; 3],
    })
}

/// An auto run of one block of the shape.
pub fn auto(shape: [usize; 3]) -> Case {
    case(tenths(shape, 0), None, [1.0; 3], rest::small(Form::SumMean))
}

/// The offsets of every pair of shapes, and of the faults of a listing.
fn listings() -> Vec<Case> {
    let mut cases = Vec::new();
    for (one, other) in SHAPES {
        let a = at(tenths(one, 1), [0, 0, -3]);
        let b = at(tenths(other, 0), [0, 2, 1]);
        let widths = [1.5, 1.0, 0.1];
        for b in [None, Some(b.clone())] {
            let a = a.clone();
            cases.push(Case::Offsets(Offsets { a, b, widths }));
        }
        let (a, b) = (b, Some(a));
        cases.push(Case::Offsets(Offsets { a, b, widths }));
    }
    let of_run = |case: Case| match case {
        Case::Blocks(x) => Some(Case::Offsets(Offsets {
            a: x.a,
            b: x.b,
            widths: x.widths,
        })),
        _ => None,
    };
    let mut calls = bad(Form::SumMean, false, false, Extent::Few);
    calls.extend(bad(Form::SumMean, true, false, Extent::Few));
    cases.extend(calls.into_iter().filter_map(of_run));
    cases
}

/// Runs of many cells, an axis at its limit among them.
fn large() -> Vec<Case> {
    let mut rng = Rng::new(4);
    let mut many = |shape| block(shape, 1, |_| rng.plain());
    let squares = Edges::Irregular((0..=64).map(|i| (i * i) as f64).collect());
    let even = regular(0.0, 90.0, 256);
    let value = regular(-90.0, 90.0, 16);
    let fitting = |form, edges: &Edges| rest::fitting(form, edges.clone(), value.clone(), 1);
    let widths = [1.0, 0.7, 1.3];
    let (a, b) = (many([3, 8, 5]), many([6, 2, 7]));
    vec![
        case(
            many([1, 1, 64]),
            None,
            [1.0; 3],
            fitting(Form::SumMean, &squares),
        ),
        case(
            many([64, 2, 2]),
            None,
            widths,
            fitting(Form::Comp0Mean, &squares),
        ),
        case(
            many([7, 6, 5]),
            None,
            widths,
            fitting(Form::Histogram, &even),
        ),
        case(a, Some(b), widths, fitting(Form::SumMean, &even)),
    ]
}

pub fn directed(extent: Extent) -> Vec<Case> {
    let mut cases = plain_runs();
    cases.extend(rounding());
    cases.extend(histograms());
    cases.extend(payloads());
    cases.extend(bad(Form::Histogram, false, false, extent));
    cases.extend(bad(Form::SumMean, true, false, extent));
    if extent == Extent::All {
        cases.extend(large());
        for form in [Form::Comp0Mean, Form::Histogram] {
            cases.extend(bad(form, false, true, extent));
            cases.extend(bad(form, true, true, extent));
        }
        cases.extend(bad(Form::Histogram, true, false, extent));
        cases.extend(listings());
    }
    cases
}

fn random_block(rng: &mut Rng) -> Block {
    let shape = [0; 3].map(|_| rng.within(1, 3));
    let pad = rng.below(3);
    let numbers = rng.list(400);
    block(shape, pad, |i| numbers[i % numbers.len()])
}

pub fn random_widths(rng: &mut Rng) -> [f64; 3] {
    [0; 3].map(|_| match rng.below(20) {
        0 => rng.special(),
        1..8 => rng.within(1, 3) as f64,
        _ => rng.unit() * 3.0 + 0.01,
    })
}

/// Blocks and widths; b's global offset is a's or after it, most of the time.
fn random_grid(rng: &mut Rng, cross: bool) -> Offsets {
    let mut offset = |spread: usize| rng.below(2 * spread + 1) as i64 - spread as i64;
    let base = [0; 3].map(|_| offset(4));
    let step = [offset(1).abs(), offset(2), offset(2)];
    Offsets {
        a: at(random_block(rng), base),
        b: cross.then(|| at(random_block(rng), [0, 1, 2].map(|k| base[k] + step[k]))),
        widths: random_widths(rng),
    }
}

/// A random run whose edges lie around its own distances and values.
pub fn random(rng: &mut Rng, cross: bool) -> Case {
    let grid = random_grid(rng, cross);
    let (a, b, widths) = (grid.a, grid.b, grid.widths);
    let mut run = BlockRun {
        a,
        b,
        widths,
        rest: rest::small(Form::SumMean),
    };
    run.rest.subtract = rng.once_in(2);
    let mut values = Vec::new();
    let mut distances = Vec::new();
    for d in grid::offsets(&run.a, &run.b) {
        distances.push(grid::squared_distance(&run.a, &run.b, &run.widths, d));
        values.extend(grid::pairs(&run, d).iter().map(|p| p.value(Form::SumMean)));
    }
    let subtract = run.rest.subtract;
    run.rest = rest::random(rng, &distances, &values);
    run.rest.subtract = subtract;
    let irregular = rng.once_in(2);
    let faults = faults(run.rest.form, cross, irregular);
    sometimes(rng, &mut run, &faults);
    Case::Blocks(run)
}

pub fn random_listing(rng: &mut Rng, cross: bool) -> Case {
    Case::Offsets(random_grid(rng, cross))
}
