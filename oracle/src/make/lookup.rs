//! Lookups.
use super::Extent;
use super::edges::{
    irregular, irregular_faults, random as random_edges, regular, regular_faults,
    short_irregular_faults,
};
use super::faults::{sometimes, spread};
use crate::case::{Case, Edges, Lookup};
use crate::rng::{Rng, SPECIAL};

fn case(edges: &Edges, value: f64) -> Case {
    Case::Lookup(Lookup {
        edges: edges.clone(),
        value,
    })
}

/// Values to try: both neighbours of each mark and itself, and the numbers that compare apart.
fn around(marks: &[f64]) -> Vec<f64> {
    let mut values = SPECIAL[..8].to_vec();
    for mark in marks {
        values.extend([mark.next_down(), *mark, mark.next_up()]);
    }
    values
}

pub fn directed(extent: Extent) -> Vec<Case> {
    let mut cases = Vec::new();
    for (min, max, n, marks) in regular_tables() {
        let edges = regular(min, max, n);
        cases.extend(around(&marks).iter().map(|v| case(&edges, *v)));
    }
    for list in irregular_tables() {
        let edges = irregular(&list);
        cases.extend(around(&list).iter().map(|v| case(&edges, *v)));
    }
    cases.extend(wrong(extent));
    cases
}

/// Every pair of faults, those with too many edges only if all are asked for.
fn wrong(extent: Extent) -> Vec<Case> {
    let mut faulty = spread(&regular(0.0, 9.0, 3), &regular_faults(), Extent::All);
    let good = irregular(&[1.0, 4.0, 9.0]);
    faulty.extend(spread(&good, &short_irregular_faults(), Extent::All));
    let long = match extent {
        Extent::All => irregular_faults(),
        Extent::Few => irregular_faults().into_iter().take(1).collect(),
    };
    faulty.extend(spread(&good, &long, extent));
    faulty.extend([
        regular(f64::MIN, f64::MAX, 4),
        regular(f64::INFINITY, f64::INFINITY, 1),
        regular(0.0, -0.0, 1),
        regular(f64::NAN, f64::NAN, 0),
        regular(1.0, 0.0, usize::MAX),
        irregular(&[f64::NEG_INFINITY, 0.0]),
        irregular(&[1.0, 0.0]),
        irregular(&[0.0, -0.0]),
    ]);
    faulty.iter().map(|edges| case(edges, 1.0)).collect()
}

/// Regular edges with the places to look at.
fn regular_tables() -> Vec<(f64, f64, usize, Vec<f64>)> {
    let third = 1.0 / 3.0;
    let tiny = 5e-324;
    vec![
        (0.0, 1.0, 3, vec![0.0, third, 2.0 * third, 1.0]),
        (0.0, 1.0, 4, vec![0.25, 0.5, 0.75, 1.0]),
        (-0.0, 1.0, 2, vec![0.5, 1.0]),
        (-1.0, tiny, 3, vec![-1.0, -third, tiny]),
        (0.0, tiny, 1, vec![tiny]),
        (
            0.0,
            256.0 * tiny * 1.5,
            256,
            vec![255.0 * tiny, 383.0 * tiny],
        ),
        (0.0, 3.0f64.next_up(), 67, vec![3.0]),
        (1.0, 1.0f64.next_up(), 256, vec![1.0]),
        (
            -f64::MAX / 2.0,
            f64::MAX / 2.0,
            7,
            vec![0.1, f64::MAX / 2.0],
        ),
        (0.1, 0.7, 6, vec![0.1, 0.2, 0.4, 0.6, 0.7]),
    ]
}

fn irregular_tables() -> Vec<Vec<f64>> {
    vec![
        vec![0.0, 25.0, 26.0],
        vec![-1.0, 0.0, 1.0],
        vec![-1.0, -0.0, 1.0],
        vec![0.0, 1.0],
        vec![-0.0, 1.0],
        vec![-1.0, 0.0],
        vec![-1.0, -0.0],
        vec![-5e-324, 5e-324, f64::MIN_POSITIVE],
        vec![f64::MIN, f64::MAX],
        vec![1.0, 1.0f64.next_up(), 2.0, 3.0, 4.0],
    ]
}

/// A value at, beside or between the edges.
pub fn near_a_mark(rng: &mut Rng, edges: &Edges) -> f64 {
    let marks = match edges {
        Edges::Regular { min, max, n } => {
            let size = (max - min) / *n as f64;
            (0..=*n).map(|i| min + i as f64 * size).collect()
        }
        Edges::Irregular(list) => list.clone(),
    };
    match rng.below(4) {
        0 => rng.any(),
        1 => marks[0] + rng.unit() * (marks[marks.len() - 1] - marks[0]),
        _ => *rng.pick(&around(&marks)),
    }
}

/// Good edges, mostly, and a value at, beside or between them.
pub fn random(rng: &mut Rng, wanted_regular: bool) -> Case {
    let sample = rng.list(4);
    let mut edges = random_edges(rng, &sample);
    while matches!(edges, Edges::Regular { .. }) != wanted_regular {
        edges = random_edges(rng, &sample);
    }
    let value = near_a_mark(rng, &edges);
    let faults = if wanted_regular {
        regular_faults()
    } else {
        irregular_faults()
    };
    sometimes(rng, &mut edges, &faults);
    case(&edges, value)
}
