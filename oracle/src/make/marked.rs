//! Answers written down by hand: document 01's marked readings, and its limits.
use super::edges::{irregular, regular};
use super::{blocks, pack, points};
use crate::answer::{Answer, Entry};
use crate::case::*;

fn lookup(edges: Edges, value: f64, found: Option<usize>) -> (Case, Answer) {
    (Case::Lookup(Lookup { edges, value }), Answer::Found(found))
}

/// K1 to K5 and K11.
fn lookups() -> Vec<(Case, Answer)> {
    let near = || irregular(&[0.0, 25.0, 26.0]);
    let signs = || irregular(&[-1.0, 0.0, 1.0]);
    vec![
        lookup(
            regular(0.0, 1.0, 3),
            f64::from_bits(0x3fefffffffffffff),
            Some(3),
        ),
        lookup(regular(0.0, 1.0, 4), 0.25, Some(1)),
        lookup(regular(0.0, 1.0, 4), 1.0, None),
        lookup(near(), 24.0, Some(0)),
        lookup(near(), 25.0, Some(1)),
        lookup(near(), 26.0, None),
        lookup(signs(), -0.0, Some(0)),
        lookup(signs(), 0.0, Some(1)),
        lookup(irregular(&[0.0, 1.0]), -0.0, None),
        lookup(regular(0.0, 1.0, 4), f64::NAN, Some(0)),
        lookup(near(), f64::NAN, None),
    ]
}

/// Widths of 1, so the squared distance is the offset's own.
fn listing(a: [usize; 3], b: Option<[usize; 3]>, all: &[([i64; 3], usize)]) -> (Case, Answer) {
    let entry = |(offset, pairs): &([i64; 3], usize)| Entry {
        offset: *offset,
        pairs: *pairs,
        distance: offset.iter().map(|d| d * d).sum::<i64>() as f64,
    };
    let answer = Answer::Listing(all.iter().map(entry).collect());
    (blocks::listing(a, b), answer)
}

/// K6 to K8.
fn offsets() -> Vec<(Case, Answer)> {
    let square = [
        ([0, 0, 1], 2),
        ([0, 1, -1], 1),
        ([0, 1, 0], 2),
        ([0, 1, 1], 1),
    ];
    let rows = [
        ([0, 0, -1], 1),
        ([0, 0, 0], 2),
        ([0, 0, 1], 2),
        ([0, 0, 2], 1),
    ];
    vec![
        (blocks::auto([1, 1, 1]), Answer::Refused(22)),
        listing([1, 1, 1], None, &[]),
        listing([1, 1, 2], None, &[([0, 0, 1], 1)]),
        listing([1, 2, 2], None, &square),
        listing([1, 1, 2], Some([1, 1, 3]), &rows),
    ]
}

/// The limit of the bins, in both lookups.
fn bins() -> Vec<(Case, Answer)> {
    let edges = |n: usize| Edges::Irregular((0..=n).map(|i| i as f64).collect());
    let over = |edges| (lookup(edges, 0.0, None).0, Answer::Refused(7));
    vec![
        lookup(regular(0.0, 256.0, 256), 255.5, Some(255)),
        lookup(edges(256), 255.5, Some(255)),
        over(regular(0.0, 257.0, 257)),
        over(edges(257)),
    ]
}

/// The other limits: the number that each call meets, 0 for none.
fn limits() -> Vec<(Case, u64)> {
    let mut all = points::limits();
    all.extend(blocks::limits());
    all.extend(pack::limits());
    all
}

/// K1 to K12.
fn readings() -> Vec<(Case, Answer)> {
    let mut all = lookups();
    all.extend(offsets());
    for (index, start, stop) in [(0, 0, 4), (1, 4, 7), (2, 7, 10)] {
        let case = Case::Segments(Segments {
            indices: 10,
            index,
            segments: 3,
        });
        all.push((case, Answer::Bounds(start, stop)));
    }
    let curve = Answer::Slice(vec![0.0, 12.0, 0.0, 2.0]);
    all.push((points::two_readings(), curve));
    all.push((points::lone_in_minus_zero(), Answer::Slice(vec![0.0; 2])));
    all
}

/// Every answer that is written down; of a call that meets no number, nothing but that.
pub fn all() -> Vec<(Case, Option<Answer>)> {
    let mut all = readings();
    all.extend(bins());
    let mut all: Vec<_> = all.into_iter().map(|(c, a)| (c, Some(a))).collect();
    let refused = |number| (number != 0).then_some(Answer::Refused(number));
    all.extend(limits().into_iter().map(|(c, n)| (c, refused(n))));
    all
}
