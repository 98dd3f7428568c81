//! Finding the bin.
use crate::case::Edges;

/// The place of a number in `totalOrder` of IEEE 754, made from its bits.
pub fn order_key(x: f64) -> u64 {
    let bits = x.to_bits();
    let negative = bits >> 63 == 1;
    if negative { !bits } else { bits | 1 << 63 }
}

/// The index that a lookup gives; regular edges may give n or more.
pub fn find(edges: &Edges, value: f64) -> Option<usize> {
    match edges {
        Edges::Regular { min, max, n } => regular(*min, *max, *n, value),
        Edges::Irregular(list) => irregular(list, value),
    }
}

fn regular(min: f64, max: f64, n: usize, value: f64) -> Option<usize> {
    if value < min || value >= max {
        return None;
    }
    let size = (max - min) / n as f64;
    let quotient = (value - min) / size;
    if quotient.is_nan() {
        Some(0)
    } else {
        Some(quotient.trunc() as usize)
    }
}

fn irregular(list: &[f64], value: f64) -> Option<usize> {
    let top = list[list.len() - 1];
    if value.is_nan() || value < list[0] || value >= top {
        return None;
    }
    let not_after = |i: &usize| order_key(list[*i]) <= order_key(value);
    (0..list.len()).rev().find(not_after)
}

/// The bin that a run or a histogram adds to: an index of n or more is dropped.
pub fn kept(edges: &Edges, value: f64) -> Option<usize> {
    find(edges, value).filter(|i| *i < edges.bins())
}
