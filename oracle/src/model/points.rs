//! The run over points.
use super::bins;
use super::state::{Pair, add, added};
use crate::case::{Points, PointsRun};

/// Positions, or values, of one point.
fn of_point(from: &[f64], set: &Points, i: usize) -> [f64; 3] {
    let stride = set.stride.unwrap_or(set.count);
    [from[i], from[stride + i], from[2 * stride + i]]
}

fn squared_distance(first: [f64; 3], second: [f64; 3]) -> f64 {
    let [d0, d1, d2] = [0, 1, 2].map(|k| second[k] - first[k]);
    d0 * d0 + (d1 * d1 + d2 * d2)
}

/// The pair of point i of the first set and point j of the second, with its squared distance.
pub fn pair(x: &PointsRun, i: usize, j: usize) -> (f64, Pair) {
    let a = &x.a;
    let b = x.b.as_ref().unwrap_or(a);
    let distance = squared_distance(of_point(&a.positions, a, i), of_point(&b.positions, b, j));
    let first = (of_point(&a.values, a, i), a.weights[i]);
    let second = (of_point(&b.values, b, j), b.weights[j]);
    (distance, Pair::new(x.rest.subtract, first, second))
}

/// Every pair of the run in its order.
pub fn pairs(x: &PointsRun) -> Vec<(f64, Pair)> {
    let last = x.b.as_ref().unwrap_or(&x.a).count;
    let mut pairs = Vec::new();
    for i in 0..x.a.count {
        let from = if x.b.is_none() { i + 1 } else { 0 };
        pairs.extend((from..last).map(|j| pair(x, i, j)));
    }
    pairs
}

/// The slice after an accepted run.
pub fn run(x: &PointsRun) -> Vec<f64> {
    let states = x.rest.pack.states;
    let mut scratch = vec![0.0; states * x.rest.pack.size];
    for (distance, pair) in pairs(x) {
        if let Some(s) = bins::kept(&x.rest.distance, distance) {
            add(&x.rest, &mut scratch, states, s, &pair);
        }
    }
    added(&x.rest, &scratch)
}
