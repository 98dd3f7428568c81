//! Runs over points.
use super::Extent;
use super::edges::{irregular, regular};
use super::faults::{Fault, lift, over, plain, sometimes, spread};
use super::rest;
use crate::case::{Case, Edges, FORMS, Form, Points, PointsRun, Rest};
use crate::model::points::pairs;
use crate::rng::{Rng, SPECIAL};

/// A set without padding; each point is three positions, three values and a weight.
fn set(points: &[[f64; 7]]) -> Points {
    let column = |k: usize| points.iter().map(move |p| p[k]);
    Points {
        count: points.len(),
        stride: None,
        positions: (0..3).flat_map(column).collect(),
        values: (3..6).flat_map(column).collect(),
        weights: column(6).collect(),
    }
}

/// The same set with padding that must not be read.
fn padded(set: &Points, by: usize) -> Points {
    let pad = |list: &[f64]| -> Vec<f64> {
        let row = |row: &[f64]| [row, &vec![f64::NAN; by]].concat();
        list.chunks(set.count).flat_map(row).collect()
    };
    Points {
        count: set.count,
        stride: Some(set.count + by),
        positions: pad(&set.positions),
        values: pad(&set.values),
        weights: set.weights.clone(),
    }
}

fn case(a: Points, b: Option<Points>, rest: Rest) -> Case {
    Case::Points(PointsRun { a, b, rest })
}

/// Faults of a set: 7, 7, then 1 to 6.
fn set_faults() -> Vec<Fault<Points>> {
    let mut faults = over::<Points, 2>([|p| p.count = 4097, |p| p.stride = Some(8193)]);
    faults.extend(plain::<Points, 6>([
        |p| p.count = 0,
        |p| p.stride = Some(0),
        |p| p.values.push(1.0),
        |p| p.stride = Some(2),
        |p| {
            p.positions.extend([1.0; 2]);
            p.values.extend([1.0; 2]);
        },
        |p| p.weights.push(1.0),
    ]));
    faults
}

pub fn faults(form: Form, cross: bool, irregular: bool) -> Vec<Fault<PointsRun>> {
    let mut faults = lift(set_faults(), |x: &mut PointsRun| &mut x.a);
    if cross {
        faults.extend(lift(set_faults(), |x: &mut PointsRun| {
            x.b.as_mut().expect("a cross run")
        }));
    }
    faults.extend(rest::faults(
        form,
        irregular,
        Vec::new(),
        |x: &mut PointsRun| &mut x.rest,
    ));
    faults
}

/// A small run of the form with every fault.
fn bad(form: Form, cross: bool, irregular: bool, extent: Extent) -> Vec<Case> {
    let one = set(&[[0.0, 1.0, 2.0, 3.0, 4.0, 5.0, 2.0]]);
    let base = PointsRun {
        a: one.clone(),
        b: cross.then_some(one),
        rest: rest::small(form),
    };
    let calls = spread(&base, &faults(form, cross, irregular), extent);
    calls.into_iter().map(Case::Points).collect()
}

/// Numbers at the limits and over them, without data to match, and the number that each meets.
pub fn limits() -> Vec<(Case, u64)> {
    let top = usize::MAX;
    let calls = [
        (4096, None, 4),
        (4097, None, 7),
        (1, Some(8192), 4),
        (1, Some(8193), 7),
        (0, Some(8193), 7),
        (top, Some(top), 7),
        (0, None, 1),
        (1, Some(0), 2),
        (1, Some(1), 0),
    ];
    let call = |(count, stride, number)| {
        let one = set(&[[0.0; 7]]);
        let a = Points {
            count,
            stride,
            ..one
        };
        (case(a, None, rest::small(Form::SumMean)), number)
    };
    calls.into_iter().map(call).collect()
}

/// Three points whose pair distances are 25, 25 and 50, and K10's two.
fn corners() -> Points {
    set(&[
        [0.0, 0.0, 0.0, 1.0, 2.0, 3.0, 1.0],
        [3.0, 4.0, 0.0, 1.0, 1.0, 1.0, 2.0],
        [0.0, 0.0, 5.0, 0.1, 0.2, 0.3, 0.7],
    ])
}

/// Edges hit exactly, both operations, every form, auto and cross, padded and not.
fn plain_runs() -> Vec<Case> {
    let edges = [
        irregular(&[0.0, 25.0, 26.0]),
        irregular(&[25.0, 50.0]),
        regular(0.0, 50.0, 2),
        regular(0.0, 50.5, 3),
    ];
    let value = irregular(&[-1.0, 0.5, 2.0, 6.0]);
    let mut cases = Vec::new();
    for (i, distance) in edges.into_iter().enumerate() {
        for (j, form) in FORMS.into_iter().enumerate() {
            let mut rest = rest::fitting(form, distance.clone(), value.clone(), j);
            rest.subtract = (i + j) % 2 == 1;
            let a = padded(&corners(), j);
            cases.push(case(a.clone(), None, rest.clone()));
            cases.push(case(a, Some(padded(&corners(), i)), rest));
        }
    }
    cases
}

/// Two points `apart` from each other, one bin on each side of `edge`.
fn split_at(apart: [f64; 3], edge: f64) -> Case {
    let [z, y, x] = apart;
    let points = set(&[
        [0.0, 0.0, 0.0, 1.0, 1.0, 1.0, 1.0],
        [z, y, x, 1.0, 1.0, 1.0, 1.0],
    ]);
    let distance = irregular(&[0.0, edge, 1e4]);
    case(
        points,
        None,
        rest::fitting(Form::SumMean, distance, irregular(&[]), 0),
    )
}

/// Distances that tell d0² + (d1² + d2²) from the other order, and from a fused sum.
fn rounding() -> Vec<Case> {
    let mut rng = Rng::new(1);
    let mut cases = Vec::new();
    while cases.len() < 12 {
        let [z, y, x] = [0; 3].map(|_| rng.unit() * 8.0);
        let ours = z * z + (y * y + x * x);
        let other = match cases.len() % 3 {
            0 => (z * z + y * y) + x * x,
            1 => (z * z + x * x) + y * y,
            _ => z.mul_add(z, y.mul_add(y, x * x)),
        };
        if ours != other {
            cases.push(split_at([z, y, x], ours.max(other)));
        }
    }
    cases
}

/// NaN, infinities, zeros and subnormals as positions, values, weights and totals.
fn payloads() -> Vec<Case> {
    let mut cases = Vec::new();
    for (i, special) in SPECIAL.into_iter().enumerate() {
        for column in [1, 3, 6] {
            let mut one = [1.0, 1.0, 1.0, 0.5, -0.5, 2.0, 3.0];
            one[column] = special;
            let points = set(&[one, [1.0, 2.0, 1.0, 2.0, 1.0, -1.0, 0.5]]);
            let regular_edges = regular(0.0, 4.0, 2);
            let distance = if i % 2 == 0 {
                regular_edges
            } else {
                irregular(&[0.0, 4.0])
            };
            let mut rest = rest::fitting(Form::SumMean, distance, irregular(&[]), 0);
            rest.pack.slice[0] = SPECIAL[(i + column) % SPECIAL.len()];
            rest.subtract = column == 3;
            cases.push(case(points, None, rest));
        }
    }
    cases
}

/// NaN distances under both kinds of edges, zero ones at zero edges, and 25, whose index is n.
fn odd_distances() -> Vec<Case> {
    let at = |x: f64| [x, 0.0, 0.0, 1.0, 1.0, 1.0, 1.0];
    let apart = [
        set(&[at(f64::NAN), at(-f64::NAN)]),
        set(&[at(f64::INFINITY), at(f64::INFINITY)]),
        set(&[at(f64::MAX), at(f64::MIN)]),
        set(&[at(0.0), at(-0.0)]),
        set(&[at(1e-170), at(0.0)]),
        set(&[at(1e-160), at(0.0)]),
        set(&[at(5.0), at(0.0)]),
    ];
    let edges = [
        regular(0.0, 25.0f64.next_up(), 3),
        regular(-1.0, 1.0, 2),
        irregular(&[0.0, 1.0]),
        irregular(&[-1.0, -0.0, 3.0]),
    ];
    let mut cases = Vec::new();
    for points in &apart {
        for distance in &edges {
            let rest = rest::fitting(Form::Comp0Mean, distance.clone(), irregular(&[]), 0);
            cases.push(case(points.clone(), None, rest));
        }
    }
    cases
}

/// A histogram of two points at squared distance 25, whose pair has the value given.
pub fn histogram(value: f64, distance: Edges, value_edges: Edges) -> Case {
    let zero = if value == 0.0 { value } else { 0.0 };
    let points = set(&[
        [0.0, 0.0, 0.0, 1.0, 1.0, 1.0, 1.0],
        [3.0, 4.0, 0.0, value, zero, zero, 2.0],
    ]);
    case(
        points,
        None,
        rest::fitting(Form::Histogram, distance, value_edges, 1),
    )
}

/// Where the Rust's histogram panics, and values beside.
fn histograms() -> Vec<Case> {
    let under_one = 1.0f64.next_down();
    let values = [
        f64::NAN,
        -f64::NAN,
        -0.0,
        0.0,
        under_one,
        0.5,
        1.0,
        f64::INFINITY,
    ];
    let near = irregular(&[0.0, 26.0]);
    let far = irregular(&[0.0, 1.0]);
    let past = regular(0.0, 25.0f64.next_up(), 3);
    let edges = [
        irregular(&[0.0, 1.0]),
        irregular(&[-0.0, 1.0]),
        irregular(&[-1.0, 0.0, 1.0]),
        regular(0.0, 1.0, 3),
        regular(-1.0, 5e-324, 3),
    ];
    let mut cases = Vec::new();
    for value in values {
        for value_edges in &edges {
            cases.push(histogram(value, near.clone(), value_edges.clone()));
        }
        cases.push(histogram(value, far.clone(), edges[4].clone()));
        cases.push(histogram(value, past.clone(), edges[0].clone()));
    }
    cases
}

/// A good run of one point into a pack of two numbers, but for the team and the slice's length.
pub fn with_team(members: u32, teams: u32, len: usize) -> Case {
    let mut rest = rest::small(Form::SumMean);
    (rest.members, rest.teams) = (members, teams);
    rest.pack.slice.truncate(len);
    case(set(&[[1.0; 7]]), None, rest)
}

/// K10's points and edges, into zeros.
pub fn two_readings() -> Case {
    let points = set(&[
        [0.0, 0.0, 0.0, 1.0, 2.0, 3.0, 1.0],
        [3.0, 4.0, 0.0, 1.0, 1.0, 1.0, 2.0],
    ]);
    let distance = irregular(&[0.0, 25.0, 26.0]);
    let mut rest = rest::fitting(Form::SumMean, distance, irregular(&[]), 0);
    rest.pack.slice.fill(0.0);
    case(points, None, rest)
}

/// K12: one auto point, with a pack of -0.0.
pub fn lone_in_minus_zero() -> Case {
    let mut rest = rest::small(Form::SumMean);
    rest.pack.slice.fill(-0.0);
    case(set(&[[1.0; 7]]), None, rest)
}

/// A cross pair of one point each into a pack of -0.0 with a tail.
fn lone_pair() -> Case {
    let one = set(&[[0.0, 1.0, 2.0, 3.0, 4.0, 5.0, 2.0]]);
    let mut rest = rest::small(Form::SumMean);
    rest.pack.slice = vec![-0.0; 3];
    case(one.clone(), Some(one), rest)
}

/// Runs of many points, each form once, with as many bins as there may be.
fn large() -> Vec<Case> {
    let mut rng = Rng::new(3);
    let mut many = |count: usize| Points {
        count,
        stride: None,
        positions: (0..3 * count).map(|_| rng.plain()).collect(),
        values: (0..3 * count).map(|_| rng.plain()).collect(),
        weights: (0..count).map(|_| rng.plain()).collect(),
    };
    let squares = Edges::Irregular((0..=256).map(|i| (i * i) as f64 / 90.0).collect());
    let even = regular(0.0, 760.0, 256);
    let value = regular(-90.0, 90.0, 16);
    let fitting = |form, edges: &Edges| rest::fitting(form, edges.clone(), value.clone(), 1);
    vec![
        case(many(700), None, fitting(Form::SumMean, &squares)),
        case(many(700), None, fitting(Form::Histogram, &even)),
        case(many(90), Some(many(400)), fitting(Form::Comp0Mean, &even)),
    ]
}

pub fn directed(extent: Extent) -> Vec<Case> {
    let mut cases = plain_runs();
    cases.push(lone_pair());
    cases.extend(rounding());
    cases.extend(odd_distances());
    cases.extend(histograms());
    cases.extend(payloads());
    cases.extend(bad(Form::Histogram, false, false, extent));
    cases.extend(bad(Form::SumMean, true, false, extent));
    if extent == Extent::All {
        cases.extend(large());
        for form in [Form::Comp0Mean, Form::Histogram] {
            cases.extend(bad(form, false, true, extent));
            cases.extend(bad(form, true, true, extent));
        }
        cases.extend(bad(Form::Histogram, true, false, extent));
    }
    cases
}

fn random_set(rng: &mut Rng) -> Points {
    let count = rng.within(1, 6);
    let stride = match rng.below(3) {
        0 => None,
        1 => Some(count),
        _ => Some(count + rng.below(3)),
    };
    let len = 3 * stride.unwrap_or(count);
    Points {
        count,
        stride,
        positions: rng.list(len),
        values: rng.list(len),
        weights: rng.list(count),
    }
}

/// A random run whose edges lie around what its pairs form.
pub fn random(rng: &mut Rng, cross: bool) -> Case {
    let mut run = PointsRun {
        a: random_set(rng),
        b: cross.then(|| random_set(rng)),
        rest: rest::small(Form::SumMean),
    };
    run.rest.subtract = rng.once_in(2);
    let pairs = pairs(&run);
    let distances: Vec<f64> = pairs.iter().map(|(d, _)| *d).collect();
    let values: Vec<f64> = pairs.iter().map(|(_, p)| p.value(Form::SumMean)).collect();
    let subtract = run.rest.subtract;
    run.rest = rest::random(rng, &distances, &values);
    run.rest.subtract = subtract;
    let irregular = rng.once_in(2);
    let faults = faults(run.rest.form, cross, irregular);
    sometimes(rng, &mut run, &faults);
    Case::Points(run)
}
