//! Reset, merge, consolidation and result.
use super::Extent;
use super::faults::{Fault, lift, over, plain, shorten, sometimes, spread};
use crate::case::{Case, Consolidation, FORMS, Form, Kind, Merge, Pack, Reset, StateResult};
use crate::rng::{Rng, SPECIAL};

pub fn kind(form: Form, value_bins: usize) -> Kind {
    let value_bins = if form == Form::Histogram {
        value_bins
    } else {
        0
    };
    Kind { form, value_bins }
}

/// Faults of a kind: 7, 8. They do nothing to a mean.
fn kind_faults() -> Vec<Fault<Kind>> {
    fn bins(kind: &mut Kind, n: usize) {
        if kind.form == Form::Histogram {
            kind.value_bins = n;
        }
    }
    let mut faults = over([|k| bins(k, 257)]);
    faults.extend(plain([|k| bins(k, 0)]));
    faults
}

/// Faults of a pack: 7, 7, then 24 by zeros, by the size and by the slice.
fn pack_faults() -> Vec<Fault<Pack>> {
    let mut faults = over::<Pack, 2>([|p| p.states = 4097, |p| (p.states, p.size) = (1 << 63, 2)]);
    faults.extend(plain::<Pack, 7>([
        |p| p.states = 0,
        |p| p.size = 0,
        |p| p.size += 1,
        |p| p.size -= (p.size > 1) as usize,
        |p| p.states += 1,
        |p| p.slice.clear(),
        |p| shorten(&mut p.slice),
    ]));
    faults
}

fn reset_faults() -> Vec<Fault<Reset>> {
    let mut faults = lift(kind_faults(), |x: &mut Reset| &mut x.kind);
    faults.extend(lift(pack_faults(), |x: &mut Reset| &mut x.pack));
    faults
}

fn merge_faults() -> Vec<Fault<Merge>> {
    let mut faults = lift(kind_faults(), |x: &mut Merge| &mut x.kind);
    faults.extend(lift(pack_faults(), |x: &mut Merge| &mut x.pack));
    faults.extend(lift(pack_faults(), |x: &mut Merge| &mut x.other));
    faults
}

fn consolidation_faults() -> Vec<Fault<Consolidation>> {
    let mut faults = lift(kind_faults(), |x: &mut Consolidation| &mut x.kind);
    faults.extend(lift(pack_faults(), |x: &mut Consolidation| &mut x.pack));
    faults.extend(plain::<Consolidation, 2>([
        |x| x.packs = 0,
        |x| x.packs = usize::MAX,
    ]));
    faults
}

fn result_faults() -> Vec<Fault<StateResult>> {
    let mut faults = lift(kind_faults(), |x: &mut StateResult| &mut x.kind);
    faults.extend(lift(pack_faults(), |x: &mut StateResult| &mut x.pack));
    faults.extend(plain::<StateResult, 4>([
        |x| x.value.clear(),
        |x| shorten(&mut x.value),
        |x| x.index = x.pack.states,
        |x| x.index = usize::MAX,
    ]));
    faults
}

/// A pack of the kind's size with numbers that sums and quotients treat apart, and a tail.
fn filled(kind: &Kind, states: usize, packs: usize, tail: usize, shift: usize) -> Pack {
    let size = kind.size();
    let number = |i: usize| match (i + shift) % 3 {
        0 => SPECIAL[(i + shift) % SPECIAL.len()],
        _ => (i + shift) as f64 / 8.0 + 0.1,
    };
    let len = packs * states * size + tail;
    Pack {
        states,
        size,
        slice: (0..len).map(number).collect(),
    }
}

/// Good calls of the kind: one state and several, with and without a tail.
fn good(kind: &Kind) -> Vec<Case> {
    let mut cases = Vec::new();
    for (states, tail, shift) in [(1, 0, 0), (2, 1, 5), (3, 0, 10)] {
        let pack = |packs: usize, more: usize| filled(kind, states, packs, tail, shift + more);
        let kind = *kind;
        cases.push(Case::Reset(Reset {
            kind,
            pack: pack(1, 0),
        }));
        let (one, other) = (pack(1, 0), pack(1, 1));
        cases.push(Case::Merge(Merge {
            kind,
            pack: one,
            other,
        }));
        for packs in 0..4 {
            let pack = pack(packs, 0);
            cases.push(Case::Consolidation(Consolidation { kind, packs, pack }));
        }
        for index in 0..states {
            let value = vec![-0.0; kind.size() + tail];
            let pack = pack(1, 0);
            cases.push(Case::Result(StateResult {
                kind,
                pack,
                index,
                value,
            }));
        }
    }
    cases
}

/// Faults around a small call of the kind.
fn bad(kind: Kind, extent: Extent) -> Vec<Case> {
    let pack = filled(&kind, 1, 1, 0, 1);
    let reset = Reset {
        kind,
        pack: pack.clone(),
    };
    let merge = Merge {
        kind,
        pack: pack.clone(),
        other: filled(&kind, 1, 1, 0, 2),
    };
    let two = filled(&kind, 1, 2, 0, 1);
    let consolidation = Consolidation {
        kind,
        packs: 2,
        pack: two,
    };
    let value = vec![1.0; kind.size()];
    let result = StateResult {
        kind,
        pack,
        index: 0,
        value,
    };
    let mut cases = all(reset, reset_faults(), extent, Case::Reset);
    cases.extend(all(merge, merge_faults(), extent, Case::Merge));
    let faults = consolidation_faults();
    cases.extend(all(consolidation, faults, extent, Case::Consolidation));
    cases.extend(all(result, result_faults(), extent, Case::Result));
    cases
}

fn all<T: Clone>(base: T, faults: Vec<Fault<T>>, extent: Extent, of: fn(T) -> Case) -> Vec<Case> {
    let calls = spread(&base, &faults, extent);
    calls.into_iter().map(of).collect()
}

/// Shapes at the limit and over it, of a slice of one number, and the number that each meets.
pub fn limits() -> Vec<(Case, u64)> {
    let shapes = [
        (2048, 2, 24),
        (2049, 2, 7),
        (usize::MAX, 0, 24),
        (0, usize::MAX, 24),
        (1 << 32, 1 << 32, 7),
    ];
    let reset = |(states, size, number)| {
        let slice = vec![1.0];
        let pack = Pack {
            states,
            size,
            slice,
        };
        let kind = kind(Form::SumMean, 0);
        (Case::Reset(Reset { kind, pack }), number)
    };
    shapes.into_iter().map(reset).collect()
}

pub fn directed(extent: Extent) -> Vec<Case> {
    let mut cases: Vec<Case> = FORMS.iter().flat_map(|f| good(&kind(*f, 3))).collect();
    cases.extend(bad(kind(Form::SumMean, 0), extent));
    cases.extend(bad(kind(Form::Histogram, 1), extent));
    if extent == Extent::All {
        cases.extend(bad(kind(Form::Comp0Mean, 0), extent));
        cases.extend(bad(kind(Form::Histogram, 2), extent));
    }
    cases
}

fn random_pack(rng: &mut Rng, kind: &Kind, states: usize, packs: usize) -> Pack {
    let tail = rng.below(3);
    Pack {
        states,
        size: kind.size(),
        slice: rng.list(packs * states * kind.size() + tail),
    }
}

/// A random call of the operation, as `NAMES` counts them.
pub fn random(rng: &mut Rng, operation: usize) -> Case {
    let kind = kind(*rng.pick(&FORMS), rng.within(1, 5));
    let states = rng.within(1, 5);
    of_shape(rng, operation, kind, states)
}

/// A random call with packs of so many states of the kind.
pub fn of_shape(rng: &mut Rng, operation: usize, kind: Kind, states: usize) -> Case {
    match operation {
        3 => {
            let mut x = Reset {
                kind,
                pack: random_pack(rng, &kind, states, 1),
            };
            sometimes(rng, &mut x, &reset_faults());
            Case::Reset(x)
        }
        4 => {
            let pack = random_pack(rng, &kind, states, 1);
            let other = random_pack(rng, &kind, states, 1);
            let mut x = Merge { kind, pack, other };
            sometimes(rng, &mut x, &merge_faults());
            Case::Merge(x)
        }
        5 => {
            let packs = rng.below(5);
            let pack = random_pack(rng, &kind, states, packs);
            let mut x = Consolidation { kind, packs, pack };
            sometimes(rng, &mut x, &consolidation_faults());
            Case::Consolidation(x)
        }
        _ => random_result(rng, kind, states),
    }
}

fn random_result(rng: &mut Rng, kind: Kind, states: usize) -> Case {
    let pack = random_pack(rng, &kind, states, 1);
    let room = kind.size() + rng.below(3);
    let index = rng.below(states);
    let value = rng.list(room);
    let mut x = StateResult {
        kind,
        pack,
        index,
        value,
    };
    sometimes(rng, &mut x, &result_faults());
    Case::Result(x)
}
