//! Runs over blocks: a sum of its own for each offset.
use super::lookup::Lookup;
use super::sum::Sum;
use entries::Block;
use std::ops::Range;

/// A block's cells i to i + n.
fn row<'a>(b: &Block<'a>, i: usize, n: usize) -> ([&'a [f64]; 3], &'a [f64]) {
    (b.components.map(|x| &x[i..i + n]), &b.weights[i..i + n])
}

/// a's cells that have a partner at the offset.
fn overlap(d: isize, a: usize, b: usize) -> Range<usize> {
    let start = (-d).max(0) as usize;
    let stop = (b as isize - d).min(a as isize).max(0) as usize;
    start..stop
}

/// Offsets in their order; in auto those after (0, 0, 0).
fn each_offset(a: [usize; 3], b: [usize; 3], auto: bool, mut f: impl FnMut([isize; 3])) {
    let [nz, ny, nx] = a.map(|n| n as isize);
    let [mz, my, mx] = b.map(|n| n as isize);
    for dz in if auto { 0 } else { 1 - nz }..mz {
        for dy in 1 - ny..my {
            for dx in 1 - nx..mx {
                if !auto || [dz, dy, dx] > [0, 0, 0] {
                    f([dz, dy, dx]);
                }
            }
        }
    }
}

pub fn fill<L: Lookup, S: Sum>(
    a: &Block,
    b: Option<&Block>,
    width: [f64; 3],
    lookup: &L,
    sum: &mut S,
) {
    let second = b.unwrap_or(a);
    let global = [0, 1, 2].map(|k| (second.offsets[k] - a.offsets[k]) as isize);
    each_offset(a.shape, second.shape, b.is_none(), |d| {
        let c = [0, 1, 2].map(|k| (d[k] + global[k]) as f64 * width[k]);
        let distance = 0.0 + c[0] * c[0] + c[1] * c[1] + c[2] * c[2];
        if lookup.inside(distance) {
            let cells = cells(a, second, d, sum);
            sum.merge(lookup.bin(distance), &cells);
        }
    });
}

fn cells<S: Sum>(a: &Block, b: &Block, d: [isize; 3], sum: &S) -> S::Cells {
    let mut cells = sum.fresh();
    let [zs, ys, xs] = [0, 1, 2].map(|k| overlap(d[k], a.shape[k], b.shape[k]));
    let n = xs.len();
    let moved = |i: usize, k: usize| (i as isize + d[k]) as usize;
    for z in zs {
        for y in ys.clone() {
            let i = z * a.strides[0] + y * a.strides[1] + xs.start;
            let j = moved(z, 0) * b.strides[0] + moved(y, 1) * b.strides[1] + moved(xs.start, 2);
            let (av, aw) = row(a, i, n);
            let (bv, bw) = row(b, j, n);
            for x in 0..n {
                let value = bv[0][x] * av[0][x] + (bv[1][x] * av[1][x] + bv[2][x] * av[2][x]);
                sum.add_cell(&mut cells, value, aw[x] * bw[x]);
            }
        }
    }
    cells
}
