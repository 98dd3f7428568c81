//! Adding to a state. Number e of state s is at e times the number of states plus s.
use super::bins;
use crate::case::{Form, Rest};

/// Three component values and a weight, of one pair.
pub struct Pair {
    pub components: [f64; 3],
    pub weight: f64,
}

impl Pair {
    pub fn new(subtract: bool, first: ([f64; 3], f64), second: ([f64; 3], f64)) -> Pair {
        let one = |k: usize| {
            if subtract {
                second.0[k] - first.0[k]
            } else {
                second.0[k] * first.0[k]
            }
        };
        Pair {
            components: [one(0), one(1), one(2)],
            weight: first.1 * second.1,
        }
    }

    /// The value that the form takes of the components.
    pub fn value(&self, form: Form) -> f64 {
        let [c0, c1, c2] = self.components;
        match form {
            Form::Comp0Mean => c0,
            _ => c0 + (c1 + c2),
        }
    }
}

/// Adds a pair to state `s` of a pack of `states` states.
pub fn add(rest: &Rest, totals: &mut [f64], states: usize, s: usize, pair: &Pair) {
    let value = pair.value(rest.form);
    if rest.form == Form::Histogram {
        if let Some(e) = bins::kept(&rest.value, value) {
            totals[e * states + s] += pair.weight;
        }
    } else {
        totals[states + s] += pair.weight;
        totals[s] += value * pair.weight;
    }
}

/// The caller's slice after a run: scratch added to it, the caller's number first.
pub fn added(rest: &Rest, scratch: &[f64]) -> Vec<f64> {
    let mut slice = rest.pack.slice.clone();
    for (place, total) in scratch.iter().enumerate() {
        slice[place] = slice[place] + total;
    }
    slice
}
