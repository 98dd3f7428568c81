//! Edges of up to 256 bins, of any spacing.
use super::edges::{increasing, regular};
use crate::case::Edges;
use crate::rng::Rng;

/// How many bins: up to 8, to 64 or to 256, each as often, and never over `most`.
fn bins(rng: &mut Rng, most: usize) -> usize {
    let top = *rng.pick(&[8, 64, 256]);
    match rng.below(8) {
        0 => most.min(top),
        _ => rng.within(1, most.min(top)),
    }
}

/// Good edges of up to `most` bins, mostly; many are numbers of the sample.
pub fn edges(rng: &mut Rng, sample: &[f64], most: usize) -> Edges {
    let n = bins(rng, most);
    if rng.once_in(3) {
        even(rng, sample, n)
    } else {
        let from = uneven(rng, sample, n);
        let mut list = increasing(rng, from);
        list.truncate(n + 1);
        Edges::Irregular(list)
    }
}

/// A number of the sample; 1 for one that is not finite.
fn near(rng: &mut Rng, sample: &[f64]) -> f64 {
    match *rng.pick(sample) {
        x if x.is_finite() => x,
        _ => 1.0,
    }
}

/// The number that comes `steps` after x.
fn after(x: f64, steps: usize) -> f64 {
    (0..steps).fold(x, |x, _| x.next_up())
}

fn even(rng: &mut Rng, sample: &[f64], n: usize) -> Edges {
    let (one, other) = (near(rng, sample), near(rng, sample));
    let (min, max) = match rng.below(6) {
        0 => (0.0, n as f64),
        1 => (-0.0, one.abs() + 1.0),
        2 => (one, after(one, rng.within(1, 300))),
        3 => (-1.0, (n * rng.within(1, 9)) as f64 / 4.0),
        4 => (one.min(other), after(one.max(other), 1)),
        _ => (one.min(other), one.max(other)),
    };
    let good = max > min && (max - min).is_finite() && (max - min) / n as f64 != 0.0;
    match good {
        true => regular(min, max, n),
        false => regular(0.0, n as f64, n),
    }
}

/// n + 1 numbers from `start` on, each from the one before.
fn rising(n: usize, start: f64, mut next: impl FnMut(f64) -> f64) -> Vec<f64> {
    let numbers = std::iter::successors(Some(start), |x| Some(next(*x)));
    numbers.take(n + 1).collect()
}

/// n + 1 numbers, not in order.
fn uneven(rng: &mut Rng, sample: &[f64], n: usize) -> Vec<f64> {
    let start = near(rng, sample);
    let unit = rng.unit() * 4.0;
    match rng.below(10) {
        0 => rising(n, rng.below(3) as f64 - 1.0, |x| {
            x + rng.within(1, 3) as f64
        }),
        1 => (0..=n).map(|i| (i * i) as f64).collect(),
        2 => rising(n, 2f64.powi(-20), |x| x * (1.0 + unit / 2.0)),
        3 => rising(n, start, f64::next_up),
        4 => (0..=n)
            .map(|_| after(near(rng, sample), rng.below(4)))
            .collect(),
        5 => rising(n, start, |x| x + rng.unit() * unit),
        6 => lopsided(start, n),
        7 => (0..=n).map(|_| f64::from_bits(rng.word())).collect(),
        8 => (0..=n).map(|_| near(rng, sample)).collect(),
        _ => rising(n, -0.0, |x| x + rng.unit().powi(8) * 99.0),
    }
}

/// All edges but one close together: a table over their range tells them apart badly.
fn lopsided(start: f64, n: usize) -> Vec<f64> {
    let mut list = rising(n, start, |x| x + (x.abs() + 1e-9) * 1e-7);
    list[n] = 1e300;
    list
}
