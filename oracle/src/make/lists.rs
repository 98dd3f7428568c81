//! Lists of runs into one slice.
use crate::case::{Case, Form};
use crate::rng::Rng;

/// Two to seven runs over points and blocks, auto and cross, and the slice that the first of them is lent.
///
/// In half of the lists all runs have the first one's edges and kind, as a survey in parts has. A run of
/// another shape than the slice has room for is refused.
pub fn runs(rng: &mut Rng) -> (Vec<Case>, Vec<f64>) {
    let mut list: Vec<Case> = (0..rng.within(2, 7)).map(|_| run(rng)).collect();
    if rng.once_in(2) {
        share(rng, &mut list);
    }
    let lengths = list
        .iter()
        .filter_map(|case| Some(case.rest()?.pack.slice.len()));
    let longest = lengths.max().unwrap_or(0);
    let len = match rng.below(8) {
        0 => rng.within(0, longest),
        _ => longest + rng.below(3),
    };
    let slice = match rng.below(3) {
        0 => vec![0.0; len],
        1 => vec![-0.0; len],
        _ => rng.list(len),
    };
    (list, slice)
}

/// A small run, mostly.
fn run(rng: &mut Rng) -> Case {
    let operation = rng.within(7, 10);
    match rng.below(8) {
        0 => super::wide(rng, operation),
        _ => super::random(rng, operation),
    }
}

/// Gives later runs the first one's edges, kind and shape; most get its operation too.
fn share(rng: &mut Rng, list: &mut [Case]) {
    let (first, others) = list.split_first_mut().expect("two runs or more");
    let first = first.rest().expect("a run").clone();
    for own in others.iter_mut().filter_map(Case::rest_mut) {
        let old = std::mem::replace(own, first.clone());
        (own.members, own.teams) = (old.members, old.teams);
        if rng.once_in(4) {
            own.subtract = old.subtract;
        }
        if own.form != Form::Histogram && rng.once_in(4) {
            own.form = *rng.pick(&[Form::Comp0Mean, Form::SumMean]);
        }
    }
}
