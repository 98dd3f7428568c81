//! Faults: changes that make a good call break a rule.
use super::Extent;
use crate::rng::Rng;

/// A change; `limit` if it is one that number 7 meets, before every other rule.
pub struct Fault<T> {
    limit: bool,
    change: Box<dyn Fn(&mut T)>,
}

impl<T: 'static> Fault<T> {
    /// The same fault in a larger thing that has the T.
    fn within<U: 'static>(self, part: fn(&mut U) -> &mut T) -> Fault<U> {
        Fault {
            limit: self.limit,
            change: Box::new(move |whole| (self.change)(part(whole))),
        }
    }
}

fn boxed<T: 'static, const N: usize>(limit: bool, changes: [fn(&mut T); N]) -> Vec<Fault<T>> {
    let fault = |f| Fault {
        limit,
        change: Box::new(f) as Box<dyn Fn(&mut T)>,
    };
    changes.into_iter().map(fault).collect()
}

/// Faults that number 7 meets.
pub fn over<T: 'static, const N: usize>(changes: [fn(&mut T); N]) -> Vec<Fault<T>> {
    boxed(true, changes)
}

/// Other faults, in the order of their rules.
pub fn plain<T: 'static, const N: usize>(changes: [fn(&mut T); N]) -> Vec<Fault<T>> {
    boxed(false, changes)
}

/// Lifts each fault of a part into the whole.
pub fn lift<T: 'static, U: 'static>(
    faults: Vec<Fault<T>>,
    part: fn(&mut U) -> &mut T,
) -> Vec<Fault<U>> {
    faults.into_iter().map(|f| f.within(part)).collect()
}

fn with<'a, T: Clone + 'a>(base: &T, faults: impl IntoIterator<Item = &'a Fault<T>>) -> T {
    let mut call = base.clone();
    for fault in faults {
        (fault.change)(&mut call);
    }
    call
}

/// The good call, each fault alone, each with all later ones, and pairs of faults if asked.
pub fn spread<T: Clone>(base: &T, faults: &[Fault<T>], extent: Extent) -> Vec<T> {
    let mut calls = vec![base.clone()];
    for (i, fault) in faults.iter().enumerate() {
        calls.push(with(base, [fault]));
        let later = faults[i + 1..].iter().rev().filter(|f| !f.limit);
        calls.push(with(base, later.chain([fault])));
    }
    if extent == Extent::All {
        calls.extend(ordered_pairs(base, faults));
    }
    calls
}

fn ordered_pairs<T: Clone>(base: &T, faults: &[Fault<T>]) -> Vec<T> {
    let mut calls = Vec::new();
    for (i, first) in faults.iter().enumerate() {
        for (j, second) in faults.iter().enumerate() {
            if i != j {
                calls.push(with(base, [first, second]));
            }
        }
    }
    calls
}

/// Takes the last number off, if there is one.
pub fn shorten(list: &mut Vec<f64>) {
    list.pop();
}

/// One call in six gets a fault, and one in six of these a second.
pub fn sometimes<T>(rng: &mut Rng, call: &mut T, faults: &[Fault<T>]) {
    while rng.once_in(6) {
        (rng.pick(faults).change)(call);
    }
}
