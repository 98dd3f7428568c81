//! The smallest inputs of each class of difference.
use super::edges::{irregular, regular};
use super::{blocks, points};
use crate::case::*;

const MEAN: Kind = Kind {
    form: Form::SumMean,
    value_bins: 0,
};

fn pack(states: usize, size: usize, slice: &[f64]) -> Pack {
    Pack {
        states,
        size,
        slice: slice.to_vec(),
    }
}

fn lookup(edges: Edges, value: f64) -> Case {
    Case::Lookup(Lookup { edges, value })
}

fn segments(indices: usize, index: usize, segments: usize) -> Case {
    Case::Segments(Segments {
        indices,
        index,
        segments,
    })
}

fn reset(kind: Kind, pack: Pack) -> Case {
    Case::Reset(Reset { kind, pack })
}

fn merge(pack: Pack, other: Pack) -> Case {
    let kind = MEAN;
    Case::Merge(Merge { kind, pack, other })
}

fn consolidation(packs: usize, pack: Pack) -> Case {
    let kind = MEAN;
    Case::Consolidation(Consolidation { kind, packs, pack })
}

fn result(pack: Pack, index: usize) -> Case {
    Case::Result(StateResult {
        kind: MEAN,
        pack,
        index,
        value: vec![0.0; 2],
    })
}

/// Class and input, every class at least once.
pub fn smallest() -> Vec<(usize, Case)> {
    let mut all = of_values();
    all.extend(of_packs());
    all.push((12, segments(0, 1, 1)));
    all.push((13, segments(0, 0, 0)));
    all.push((13, points::with_team(0, 1, 2)));
    all.push((13, points::with_team(1, 0, 2)));
    all.push((13, points::with_team(1, 1, 1)));
    all.push((13, points::with_team(2, 1, 1)));
    all.push((14, lookup(regular(0.0, 1.0, 257), 0.5)));
    all.push((14, reset(MEAN, pack(2049, 2, &[1.0]))));
    all.push((14, points::limits()[1].0.clone()));
    all.sort_by_key(|(class, _)| *class);
    all
}

/// Classes 1 to 7.
fn of_values() -> Vec<(usize, Case)> {
    let zero_one = || irregular(&[0.0, 1.0]);
    let thirds = || regular(0.0, 1.0, 3);
    let near = || irregular(&[0.0, 26.0]);
    let top = 1.0f64.next_down();
    let past_top = regular(0.0, 25.0f64.next_up(), 3);
    let tiny = regular(-1.0, 5e-324, 3);
    let nan = f64::NAN;
    vec![
        (1, lookup(zero_one(), nan)),
        (1, lookup(zero_one(), -nan)),
        (2, lookup(zero_one(), -0.0)),
        (3, points::histogram(nan, near(), zero_one())),
        (4, points::histogram(-0.0, near(), zero_one())),
        (5, points::histogram(top, near(), thirds())),
        (6, points::histogram(1.0, zero_one(), tiny)),
        (3, blocks::histogram(nan, 5.0, near(), zero_one())),
        (4, blocks::histogram(-0.0, 5.0, near(), zero_one())),
        (5, blocks::histogram(top, 5.0, near(), thirds())),
        (7, blocks::histogram(nan, 5.0, past_top, zero_one())),
        (7, blocks::histogram(top, nan, near(), thirds())),
    ]
}

/// Classes 8 to 11, and 13 by shape and slice.
fn of_packs() -> Vec<(usize, Case)> {
    let histogram = Kind {
        form: Form::Histogram,
        value_bins: 1,
    };
    let three = || pack(1, 3, &[1.0, 2.0, 3.0]);
    let two = || pack(1, 2, &[1.0, 2.0]);
    vec![
        (8, reset(histogram, pack(1, 1, &[1.0, 2.0]))),
        (9, reset(MEAN, three())),
        (9, reset(MEAN, pack(1, 1, &[1.0, 2.0]))),
        (9, reset(MEAN, pack(1, 1, &[1.0]))),
        (9, merge(three(), three())),
        (9, consolidation(2, pack(1, 3, &[1.0; 6]))),
        (9, consolidation(0, pack(1, 3, &[]))),
        (9, result(three(), 0)),
        (10, merge(two(), three())),
        (10, merge(two(), pack(2, 2, &[1.0; 4]))),
        (11, result(pack(1, 2, &[1.0, 2.0, 4.0]), 1)),
        (11, result(two(), 1)),
        (13, reset(MEAN, pack(0, 2, &[]))),
        (13, reset(MEAN, pack(1, 0, &[]))),
        (13, reset(MEAN, pack(1, 2, &[1.0]))),
    ]
}
