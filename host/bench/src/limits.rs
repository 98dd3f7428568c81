//! What the machine's limit is made of: parts of the work with all else left out.
use std::hint::black_box;
use std::time::Instant;

const N: usize = 256;

/// The least time of a few, a thing done `count` times, in nanoseconds.
fn least(count: usize, mut f: impl FnMut()) -> f64 {
    let mut time = || {
        let start = Instant::now();
        f();
        start.elapsed().as_secs_f64() * 1e9 / count as f64
    };
    (0..15).map(|_| time()).fold(f64::INFINITY, f64::min)
}

/// The squared distances from one place to all, into `out`.
fn distances(p: [f64; 3], axes: [&[f64; N]; 3], out: &mut [f64; N]) {
    let [x, y, z] = axes;
    for e in 0..N {
        let (d0, d1, d2) = (x[e] - p[0], y[e] - p[1], z[e] - p[2]);
        out[e] = d0 * d0 + (d1 * d1 + d2 * d2);
    }
}

/// The sums of pairs whose bins are known.
fn binned(v: [f64; 4], values: [&[f64; N]; 4], bins: &[u8; N], sums: &mut [[f64; 2]; 256]) {
    let [v0, v1, v2, w] = values;
    for e in 0..N {
        let weight = v[3] * w[e];
        let sum = &mut sums[bins[e] as usize];
        sum[0] += (v0[e] * v[0] + (v1[e] * v[1] + v2[e] * v[2])) * weight;
        sum[1] += weight;
    }
}

/// The sums of the pairs of two rows of cells.
fn cells(a: [&[f64; N]; 4], b: [&[f64; N]; 4]) -> [f64; 2] {
    let mut sum = [0.0; 2];
    for e in 0..N {
        let weight = a[3][e] * b[3][e];
        sum[0] += (b[0][e] * a[0][e] + (b[1][e] * a[1][e] + b[2][e] * a[2][e])) * weight;
        sum[1] += weight;
    }
    sum
}

pub fn print() {
    const TIMES: usize = 4000;
    let row: [f64; N] = std::array::from_fn(|e| e as f64);
    let bins: [u8; N] = std::array::from_fn(|e| (e * e % 31) as u8);
    let (mut out, mut sums) = ([0.0; N], [[0.0; 2]; 256]);
    let distance = least(N * TIMES, || {
        for i in 0..TIMES {
            distances(black_box([i as f64; 3]), black_box([&row; 3]), &mut out);
            black_box(&out);
        }
    });
    let sum = least(N * TIMES, || {
        for i in 0..TIMES {
            binned(
                black_box([i as f64; 4]),
                black_box([&row; 4]),
                black_box(&bins),
                &mut sums,
            );
            black_box(&sums);
        }
    });
    let cell = least(N * TIMES, || {
        for _ in 0..TIMES {
            black_box(cells(black_box([&row; 4]), black_box([&row; 4])));
        }
    });
    println!(
        "\nof a pair, in long batches: squared distance {distance:.2} ns; the sums of a mean, its bin known, {sum:.2} ns"
    );
    println!("a pair of cells in a row of {N}: {cell:.2} ns");
}
