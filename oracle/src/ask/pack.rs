//! The pack operations, put to the Rust.
use super::{Said, wrap};
use crate::answer::Answer;
use crate::case::{Consolidation, Merge, Pack, Reset, StateResult};
use ndarray::ArrayViewMut1;
use pairstat_nostd_internal::{
    Reducer, StatePackView, StatePackViewMut, merge_full_statepacks, reset_full_statepack,
    serial_consolidate_scratch_statepacks,
};

fn view<'a>(pack: &Pack, slice: &'a mut [f64]) -> StatePackViewMut<'a> {
    StatePackViewMut::from_slice(pack.states, pack.size, slice)
}

pub fn reset(x: &Reset) -> Said {
    let value_edges = wrap::stand_in_edges(&x.kind);
    let reducer = wrap::reducer(x.kind.form, &value_edges)?;
    let mut slice = x.pack.slice.clone();
    reset_full_statepack(&reducer, &mut view(&x.pack, &mut slice));
    Ok(Answer::Slice(slice))
}

pub fn merge(x: &Merge) -> Said {
    let value_edges = wrap::stand_in_edges(&x.kind);
    let reducer = wrap::reducer(x.kind.form, &value_edges)?;
    let mut slice = x.pack.slice.clone();
    let other = StatePackView::from_slice(x.other.states, x.other.size, &x.other.slice);
    merge_full_statepacks(&reducer, &mut view(&x.pack, &mut slice), &other);
    Ok(Answer::Slice(slice))
}

pub fn consolidation(x: &Consolidation) -> Said {
    let value_edges = wrap::stand_in_edges(&x.kind);
    let reducer = wrap::reducer(x.kind.form, &value_edges)?;
    let mut slice = x.pack.slice.clone();
    let mut packs = Vec::new();
    let mut left = &mut slice[..];
    for _ in 0..x.packs {
        let len = x.pack.states.saturating_mul(x.pack.size).min(left.len());
        let (one, others) = left.split_at_mut(len);
        packs.push(view(&x.pack, one));
        left = others;
    }
    serial_consolidate_scratch_statepacks(&reducer, &mut packs);
    Ok(Answer::Slice(slice))
}

pub fn result(x: &StateResult) -> Said {
    let value_edges = wrap::stand_in_edges(&x.kind);
    let reducer = wrap::reducer(x.kind.form, &value_edges)?;
    let mut value = x.value.clone();
    let pack = StatePackView::from_slice(x.pack.states, x.pack.size, &x.pack.slice);
    let mut out = ArrayViewMut1::from(&mut value[..]);
    reducer.value_from_accum_state(&mut out, &pack.get_state(x.index));
    Ok(Answer::Slice(value))
}
