//! Reset, merge, consolidation and result.
use crate::case::{Consolidation, Form, Merge, Pack, Reset, StateResult};

fn used(pack: &Pack) -> usize {
    pack.states * pack.size
}

pub fn reset(x: &Reset) -> Vec<f64> {
    let mut slice = x.pack.slice.clone();
    slice[..used(&x.pack)].fill(0.0);
    slice
}

pub fn merge(x: &Merge) -> Vec<f64> {
    let mut slice = x.pack.slice.clone();
    for place in 0..used(&x.pack) {
        slice[place] = slice[place] + x.other.slice[place];
    }
    slice
}

pub fn consolidation(x: &Consolidation) -> Vec<f64> {
    let mut slice = x.pack.slice.clone();
    for other in 1..x.packs {
        for place in 0..used(&x.pack) {
            slice[place] = slice[place] + slice[other * used(&x.pack) + place];
        }
    }
    slice
}

pub fn result(x: &StateResult) -> Vec<f64> {
    let number = |e: usize| x.pack.slice[e * x.pack.states + x.index];
    let mut value = x.value.clone();
    if x.kind.form == Form::Histogram {
        for e in 0..x.pack.size {
            value[e] = number(e);
        }
    } else {
        value[0] = number(0) / number(1);
        value[1] = number(1);
    }
    value
}
