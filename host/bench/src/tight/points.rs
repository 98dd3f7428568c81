//! Runs over points: distances in batches, the places inside the ends listed without a branch.
use super::lookup::Lookup;
use super::sum::Sum;
use entries::Points;

const BATCH: usize = 256;

/// Three axes, each of all points.
fn axes<'a>(numbers: &'a [f64], p: &Points) -> [&'a [f64]; 3] {
    let stride = p.stride.unwrap_or(p.count);
    [0, 1, 2].map(|k| &numbers[k * stride..k * stride + p.count])
}

pub fn fill<L: Lookup, S: Sum>(a: &Points, b: Option<&Points>, lookup: &L, sum: &mut S) {
    let second = b.unwrap_or(a);
    let (ap, av) = (axes(a.positions, a), axes(a.values, a));
    let (bp, bv) = (axes(second.positions, second), axes(second.values, second));
    for i in 0..a.count {
        let p = ap.map(|x| x[i]);
        let v = av.map(|x| x[i]);
        let w = a.weights[i];
        let mut j = if b.is_none() { i + 1 } else { 0 };
        while j < second.count {
            let m = (second.count - j).min(BATCH);
            let (bp, bv) = (bp.map(|x| &x[j..j + m]), bv.map(|x| &x[j..j + m]));
            batch(p, v, w, bp, bv, &second.weights[j..j + m], lookup, sum);
            j += m;
        }
    }
}

#[inline(always)]
#[allow(clippy::too_many_arguments)]
fn batch<L: Lookup, S: Sum>(
    p: [f64; 3],
    v: [f64; 3],
    w: f64,
    bp: [&[f64]; 3],
    bv: [&[f64]; 3],
    bw: &[f64],
    lookup: &L,
    sum: &mut S,
) {
    let m = bw.len();
    let (x, y, z) = (&bp[0][..m], &bp[1][..m], &bp[2][..m]);
    let mut distances = [0.0; BATCH];
    for e in 0..m {
        let (d0, d1, d2) = (x[e] - p[0], y[e] - p[1], z[e] - p[2]);
        distances[e] = d0 * d0 + (d1 * d1 + d2 * d2);
    }
    let mut places = [0u16; BATCH];
    let mut count = 0;
    for (e, d) in distances[..m].iter().enumerate() {
        places[count & 255] = e as u16;
        count += lookup.inside(*d) as usize;
    }
    let (v0, v1, v2) = (&bv[0][..m], &bv[1][..m], &bv[2][..m]);
    for e in &places[..count] {
        let e = *e as usize;
        let bin = lookup.bin(distances[e]);
        let value = v0[e] * v[0] + (v1[e] * v[1] + v2[e] * v[2]);
        sum.add(bin, value, w * bw[e]);
    }
}
