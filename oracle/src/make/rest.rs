//! What both runs take beside their data.
use super::edges::{irregular, irregular_faults, random as random_edges, regular, regular_faults};
use super::faults::{Fault, lift, over, plain};
use crate::case::{Edges, FORMS, Form, Pack, Rest};
use crate::rng::Rng;

/// A run with these edges into a pack that fits, of small numbers, with a tail.
pub fn fitting(form: Form, distance: Edges, value: Edges, tail: usize) -> Rest {
    let mut rest = Rest {
        subtract: false,
        form,
        distance,
        value,
        pack: Pack {
            states: 0,
            size: 0,
            slice: Vec::new(),
        },
        members: 1,
        teams: 1,
    };
    fit(&mut rest, tail);
    rest
}

/// Gives the pack the shape of the edges and the kind.
fn fit(rest: &mut Rest, tail: usize) {
    let (states, size) = (rest.distance.bins(), rest.kind().size());
    let slice = (0..states * size + tail).map(|i| i as f64 / 4.0).collect();
    rest.pack = Pack {
        states,
        size,
        slice,
    };
}

/// One bin, which holds squared distances from 0 to 9.
pub fn small(form: Form) -> Rest {
    fitting(form, regular(0.0, 9.0, 1), regular(-9.0, 9.0, 1), 0)
}

/// Faults of the edges: regular ones, and irregular ones where that is asked.
fn edges_faults(irregular: bool) -> Vec<Fault<Edges>> {
    if irregular {
        irregular_faults()
    } else {
        regular_faults()
    }
}

/// Faults of the team and the pack: 7 by the pack, then 23 and 24.
fn ending_faults() -> Vec<Fault<Rest>> {
    let mut faults = over::<Rest, 1>([|r| (r.pack.states, r.pack.size) = (4097, 1)]);
    faults.extend(plain::<Rest, 10>([
        |r| r.members = 2,
        |r| r.teams = u32::MAX,
        |r| r.members = 0,
        |r| r.teams = 0,
        |r| r.pack.states += 1,
        |r| r.pack.size += 1,
        |r| r.pack.slice.clear(),
        |r| r.pack.states = 0,
        |r| r.pack.size = 0,
        |r| {
            r.pack.size += 1;
            r.pack.slice.resize(12, 0.5);
        },
    ]));
    faults
}

/// All faults of the rest of a run of this form; `between` go before those of the team.
pub fn faults<U: 'static>(
    form: Form,
    irregular: bool,
    between: Vec<Fault<U>>,
    part: fn(&mut U) -> &mut Rest,
) -> Vec<Fault<U>> {
    let distance = lift(edges_faults(irregular), |r: &mut Rest| &mut r.distance);
    let mut faults = lift(distance, part);
    if form == Form::Histogram {
        let value = lift(edges_faults(irregular), |r: &mut Rest| &mut r.value);
        faults.extend(lift(value, part));
    }
    faults.extend(between);
    faults.extend(lift(ending_faults(), part));
    faults
}

/// A good rest around the distances and values given.
pub fn random(rng: &mut Rng, distances: &[f64], values: &[f64]) -> Rest {
    let form = *rng.pick(&FORMS);
    let distance = random_edges(rng, distances);
    let value = match form {
        Form::Histogram => random_edges(rng, values),
        _ => irregular(&[]),
    };
    let mut rest = fitting(form, distance, value, 0);
    let tail = rng.below(3);
    rest.pack.slice = rng.list(rest.pack.states * rest.pack.size + tail);
    rest.subtract = rng.once_in(2);
    rest
}
