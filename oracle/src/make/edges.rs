//! Edges, good and bad.
use super::faults::{Fault, over, plain};
use crate::case::Edges;
use crate::rng::Rng;

pub fn regular(min: f64, max: f64, n: usize) -> Edges {
    Edges::Regular { min, max, n }
}

pub fn irregular(list: &[f64]) -> Edges {
    Edges::Irregular(list.to_vec())
}

/// Faults of regular edges: 7, 8, 9, 10, 10, 11.
pub fn regular_faults() -> Vec<Fault<Edges>> {
    let mut faults = over([|e| set(e, None, None, Some(257))]);
    faults.extend(plain([
        |e| set(e, None, None, Some(0)),
        |e| set(e, Some(2.0), Some(2.0), None),
        |e| set(e, None, Some(f64::INFINITY), None),
        |e| set(e, Some(f64::NAN), None, None),
        |e| set(e, Some(0.0), Some(5e-324), Some(2)),
    ]));
    faults
}

/// Sets the parts given; irregular edges become regular ones first.
fn set(edges: &mut Edges, min: Option<f64>, max: Option<f64>, n: Option<usize>) {
    let old = match edges {
        Edges::Regular { min, max, n } => (*min, *max, *n),
        Edges::Irregular(_) => (0.0, 9.0, edges.bins()),
    };
    *edges = regular(
        min.unwrap_or(old.0),
        max.unwrap_or(old.1),
        n.unwrap_or(old.2),
    );
}

/// Faults of irregular edges: 7, 12, 12, 10, 10, 13, 13.
pub fn irregular_faults() -> Vec<Fault<Edges>> {
    let mut faults = over([|e| list(e).extend((0..257).map(|i| 1e9 + i as f64))]);
    faults.extend(short_irregular_faults());
    faults
}

/// Those that add at most one edge, so without 7.
pub fn short_irregular_faults() -> Vec<Fault<Edges>> {
    plain([
        |e| list(e).clear(),
        |e| list(e).truncate(1),
        |e| list(e).push(f64::INFINITY),
        |e| list(e).insert(0, -f64::NAN),
        |e| list(e).push(-9.0),
        |e| list(e).splice(..0, [-0.0, 0.0]).for_each(drop),
    ])
}

/// The list of irregular edges; regular ones give way to one.
fn list(edges: &mut Edges) -> &mut Vec<f64> {
    if matches!(edges, Edges::Regular { .. }) {
        *edges = irregular(&[1.0, 2.0]);
    }
    match edges {
        Edges::Irregular(list) => list,
        Edges::Regular { .. } => unreachable!(),
    }
}

/// Strictly increasing numbers out of the candidates, at least two.
pub fn increasing(rng: &mut Rng, mut from: Vec<f64>) -> Vec<f64> {
    from.retain(|x| x.is_finite());
    from.sort_by(f64::total_cmp);
    from.dedup_by(|right, left| *right <= *left);
    while from.len() < 2 || (from.len() > 2 && rng.once_in(8)) {
        let top = from.last().map_or(0.0, |x| x + 1.0);
        from.push(top);
    }
    from
}

/// Good edges around the sample, some of whose numbers they hit.
pub fn random(rng: &mut Rng, sample: &[f64]) -> Edges {
    let near = |rng: &mut Rng| match sample.len() {
        0 => rng.plain(),
        _ => *rng.pick(sample),
    };
    if rng.once_in(2) {
        let (one, two) = (near(rng), near(rng));
        let (min, max) = if one < two {
            (one, two)
        } else {
            (0.0, one.abs() + 1.0)
        };
        let span = if (max - min).is_finite() {
            max
        } else {
            min + 1.0
        };
        let max = if rng.once_in(2) { span } else { span + 0.5 };
        regular(min, max, rng.within(1, 7))
    } else {
        let mut list: Vec<f64> = (0..rng.within(1, 4)).map(|_| near(rng)).collect();
        if rng.once_in(2) {
            list.push(*rng.pick(&[0.0, -0.0]));
        }
        list.push(rng.plain());
        Edges::Irregular(increasing(rng, list))
    }
}
