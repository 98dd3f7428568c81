//! What a whole call has to refuse, as a yes or no: every rule of the library's runs, without its number.
use super::{Case, Sets};
use entries::{Block, Edges, Kind, Points};

fn edges(e: &Edges) -> bool {
    match e {
        Edges::Regular { min, max, n } => {
            let width = max - min;
            (1..=256).contains(n) && min < max && width.is_finite() && width / *n as f64 != 0.0
        }
        Edges::Irregular(list) => {
            (2..=257).contains(&list.len())
                && list[0].is_finite()
                && list[list.len() - 1].is_finite()
                && list.windows(2).fold(true, |rises, w| rises & (w[0] < w[1]))
        }
    }
}

fn bins(e: &Edges) -> usize {
    match e {
        Edges::Regular { n, .. } => *n,
        Edges::Irregular(list) => list.len() - 1,
    }
}

fn points(p: &Points) -> bool {
    let stride = p.stride.unwrap_or(p.count);
    (1..=4096).contains(&p.count)
        && (p.count..=8192).contains(&stride)
        && p.positions.len() == 3 * stride
        && p.values.len() == 3 * stride
        && p.weights.len() == p.count
}

fn block(b: &Block) -> bool {
    let ([nz, ny, nx], [sz, sy, sx]) = (b.shape, b.strides);
    let fits = |n| (1..=64).contains(n);
    let near = |g: &i64| (-1_000_000..=1_000_000).contains(g);
    b.shape.iter().all(fits)
        && b.strides.iter().all(|s| *s <= 65536)
        && b.offsets.iter().all(near)
        && sx == 1
        && sz >= sy * ny
        && sy >= nx
        && (nz - 1) * sz + (ny - 1) * sy + nx <= b.weights.len().min(65536)
        && b.components.iter().all(|c| c.len() == b.weights.len())
}

/// Whether the call is accepted.
pub fn accepted(case: &Case, len: usize) -> bool {
    let run = &case.run;
    let sets = match &case.sets {
        Sets::Points(a, b) => points(a) && b.as_ref().is_none_or(points),
        Sets::Blocks(a, b, width) => {
            block(a)
                && !width.iter().any(|w| *w <= 0.0)
                && match b {
                    Some(b) => block(b) && b.offsets >= a.offsets,
                    None => a.shape.iter().product::<usize>() > 1,
                }
        }
    };
    let size = match &run.kind {
        Kind::ComponentSumHistogram(value) if !edges(value) => return false,
        Kind::ComponentSumHistogram(value) => bins(value),
        _ => 2,
    };
    sets && edges(&run.distance)
        && (run.shape.states, run.shape.size) == (bins(&run.distance), size)
        && run.shape.states * size <= len.min(4096)
        && (run.members, run.teams) == (1, 1)
}
