//! The run over blocks, and its offsets.
use super::bins;
use super::state::{Pair, add, added};
use crate::answer::Entry;
use crate::case::{Block, BlockRun, Offsets};

/// Every offset of the run in its order: z, y, x, x fastest; in auto those after (0,0,0).
pub fn offsets(a: &Block, b: &Option<Block>) -> Vec<[i64; 3]> {
    let other = b.as_ref().unwrap_or(a);
    let range = |k: usize| -(a.shape[k] as i64 - 1)..other.shape[k] as i64;
    let mut all = Vec::new();
    for z in range(0) {
        for y in range(1) {
            for x in range(2) {
                all.push([z, y, x]);
            }
        }
    }
    if b.is_none() {
        all.retain(|d| *d > [0, 0, 0]);
    }
    all
}

/// The places of a's cell and b's cell for each pair of the offset, a's cells in order z, y, x.
pub fn cells(a: &Block, b: &Block, d: [i64; 3]) -> Vec<(usize, usize)> {
    let mut pairs = Vec::new();
    for z in 0..a.shape[0] {
        for y in 0..a.shape[1] {
            for x in 0..a.shape[2] {
                let cell = [z, y, x];
                let far = [0, 1, 2].map(|k| cell[k] as i64 + d[k]);
                if (0..3).all(|k| 0 <= far[k] && far[k] < b.shape[k] as i64) {
                    pairs.push((place(a, cell), place(b, far.map(|i| i as usize))));
                }
            }
        }
    }
    pairs
}

fn place(block: &Block, cell: [usize; 3]) -> usize {
    cell[0] * block.strides[0] + cell[1] * block.strides[1] + cell[2]
}

/// From 0.0, (index displacement times width)² in z, y, x order.
pub fn squared_distance(a: &Block, b: &Option<Block>, widths: &[f64; 3], d: [i64; 3]) -> f64 {
    let mut sum = 0.0;
    for k in 0..3 {
        let apart = match b {
            Some(b) => d[k] + b.offsets[k] - a.offsets[k],
            None => d[k],
        };
        let length = apart as f64 * widths[k];
        sum = sum + length * length;
    }
    sum
}

/// Every pair of one offset.
pub fn pairs(x: &BlockRun, d: [i64; 3]) -> Vec<Pair> {
    let b = x.b.as_ref().unwrap_or(&x.a);
    let read = |block: &Block, at: usize| {
        let components = [0, 1, 2].map(|k| block.components[k][at]);
        (components, block.weights[at])
    };
    let pair = |(i, j)| Pair::new(x.rest.subtract, read(&x.a, i), read(b, j));
    cells(&x.a, b, d).into_iter().map(pair).collect()
}

/// The slice after an accepted run.
pub fn run(x: &BlockRun) -> Vec<f64> {
    let (states, size) = (x.rest.pack.states, x.rest.pack.size);
    let mut scratch = vec![0.0; states * size];
    for d in offsets(&x.a, &x.b) {
        let distance = squared_distance(&x.a, &x.b, &x.widths, d);
        let Some(s) = bins::kept(&x.rest.distance, distance) else {
            continue;
        };
        let mut fresh = vec![0.0; size];
        for pair in pairs(x, d) {
            add(&x.rest, &mut fresh, 1, 0, &pair);
        }
        for e in 0..size {
            scratch[e * states + s] += fresh[e];
        }
    }
    added(&x.rest, &scratch)
}

/// Each offset with its number of pairs and its squared distance.
pub fn listing(x: &Offsets) -> Vec<Entry> {
    let b = x.b.as_ref().unwrap_or(&x.a);
    let entry = |d: [i64; 3]| Entry {
        offset: d,
        pairs: cells(&x.a, b, d).len(),
        distance: squared_distance(&x.a, &x.b, &x.widths, d),
    };
    offsets(&x.a, &x.b).into_iter().map(entry).collect()
}
