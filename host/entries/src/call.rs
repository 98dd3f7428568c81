//! The safe forms, one for each entry.
//!
//! SAFETY of every block: each pointer stands beside the length of the live slice that it comes from, and the
//! slice lent for writing is apart from the others, as the borrow checker sees to. An entry reads and writes
//! inside these slices, keeps none of them and asks nothing else of its caller.
use crate::c;
use crate::data::{Block, PackShape, Points, Run, StateKind};

/// The number of a refusal, which 0 is not.
fn refusal(number: u32) -> Result<(), u32> {
    match number {
        0 => Ok(()),
        number => Err(number),
    }
}

/// The bin of a value under regular edges, if there is one; the index may be `n` or more.
pub fn regular_bin_index(min: f64, max: f64, n: usize, value: f64) -> Result<Option<usize>, u32> {
    let mut out = [0; 3];
    regular_bin_index_into(min, max, n, value, &mut out)?;
    Ok(found(out))
}

/// The bin of a value under irregular edges, if there is one.
pub fn irregular_bin_index(edges: &[f64], value: f64) -> Result<Option<usize>, u32> {
    let mut out = [0; 3];
    irregular_bin_index_into(edges, value, &mut out)?;
    Ok(found(out))
}

/// Where the segment starts and stops.
pub fn segment_idx_bounds(
    indices: usize,
    index: usize,
    segments: usize,
) -> Result<(usize, usize), u32> {
    let mut out = [0; 3];
    segment_idx_bounds_into(indices, index, segments, &mut out)?;
    let [_, start, stop] = out;
    Ok((start as usize, stop as usize))
}

/// The number, whether there is a bin, and the bin.
fn found([_, there, bin]: [u64; 3]) -> Option<usize> {
    (there == 1).then_some(bin as usize)
}

/// `regular_bin_index` as the entry gives it: its number, whether there is a bin, and the bin, in front of `out`.
/// A slice of fewer than three words holds what it held, and is 24 where nothing else is refused.
pub fn regular_bin_index_into(
    min: f64,
    max: f64,
    n: usize,
    value: f64,
    out: &mut [u64],
) -> Result<(), u32> {
    // SAFETY: above.
    refusal(unsafe {
        c::pairstat_regular_bin_index(min, max, n, value, out.as_mut_ptr(), out.len())
    })
}

/// `irregular_bin_index` in the same way.
pub fn irregular_bin_index_into(edges: &[f64], value: f64, out: &mut [u64]) -> Result<(), u32> {
    // SAFETY: above.
    refusal(unsafe {
        c::pairstat_irregular_bin_index(
            edges.as_ptr(),
            edges.len(),
            value,
            out.as_mut_ptr(),
            out.len(),
        )
    })
}

/// `segment_idx_bounds` in the same way: its number, the start and the stop.
pub fn segment_idx_bounds_into(
    indices: usize,
    index: usize,
    segments: usize,
    out: &mut [u64],
) -> Result<(), u32> {
    // SAFETY: above.
    refusal(unsafe {
        c::pairstat_segment_idx_bounds(indices, index, segments, out.as_mut_ptr(), out.len())
    })
}

/// Every number of the pack becomes 0.0.
pub fn reset_full_statepack(
    kind: StateKind,
    shape: PackShape,
    pack: &mut [f64],
) -> Result<(), u32> {
    let (histogram, bins) = kind.flat();
    // SAFETY: above.
    refusal(unsafe {
        c::pairstat_reset_full_statepack(
            histogram,
            bins,
            shape.states,
            shape.size,
            pack.as_mut_ptr(),
            pack.len(),
        )
    })
}

/// Adds the other pack's numbers to the pack's.
pub fn merge_full_statepacks(
    kind: StateKind,
    shape: PackShape,
    other_shape: PackShape,
    pack: &mut [f64],
    other: &[f64],
) -> Result<(), u32> {
    let (histogram, bins) = kind.flat();
    // SAFETY: above.
    refusal(unsafe {
        c::pairstat_merge_full_statepacks(
            histogram,
            bins,
            shape.states,
            shape.size,
            other_shape.states,
            other_shape.size,
            pack.as_mut_ptr(),
            pack.len(),
            other.as_ptr(),
            other.len(),
        )
    })
}

/// Adds every later pack to the first of `n_packs` that lie one after another.
pub fn serial_consolidate_scratch_statepacks(
    kind: StateKind,
    n_packs: usize,
    shape: PackShape,
    packs: &mut [f64],
) -> Result<(), u32> {
    let (histogram, bins) = kind.flat();
    // SAFETY: above.
    refusal(unsafe {
        c::pairstat_serial_consolidate_scratch_statepacks(
            histogram,
            bins,
            n_packs,
            shape.states,
            shape.size,
            packs.as_mut_ptr(),
            packs.len(),
        )
    })
}

/// Writes what state `index` of the pack says.
pub fn value_from_accum_state(
    kind: StateKind,
    shape: PackShape,
    index: usize,
    pack: &[f64],
    value: &mut [f64],
) -> Result<(), u32> {
    let (histogram, bins) = kind.flat();
    // SAFETY: above.
    refusal(unsafe {
        c::pairstat_value_from_accum_state(
            histogram,
            bins,
            shape.states,
            shape.size,
            index,
            pack.as_ptr(),
            pack.len(),
            value.as_mut_ptr(),
            value.len(),
        )
    })
}

/// Every pair of points of one set once, added to the pack.
pub fn points_auto(set: &Points, run: &Run, pack: &mut [f64]) -> Result<(), u32> {
    let (irregular, min, max, n, list) = run.distance.flat();
    let (form, value) = run.kind.flat();
    let (value_irregular, value_min, value_max, value_n, value_list) = value.flat();
    // SAFETY: above.
    refusal(unsafe {
        c::pairstat_points_auto(
            set.positions.as_ptr(),
            set.positions.len(),
            set.values.as_ptr(),
            set.values.len(),
            set.weights.as_ptr(),
            set.weights.len(),
            set.count,
            set.stride.is_some() as u64,
            set.stride.unwrap_or(0),
            irregular,
            min,
            max,
            n,
            list.as_ptr(),
            list.len(),
            form,
            value_irregular,
            value_min,
            value_max,
            value_n,
            value_list.as_ptr(),
            value_list.len(),
            run.operation as u64,
            run.shape.states,
            run.shape.size,
            run.members,
            run.teams,
            pack.as_mut_ptr(),
            pack.len(),
        )
    })
}

/// Every point of `a` with every point of `b`, added to the pack.
pub fn points_cross(a: &Points, b: &Points, run: &Run, pack: &mut [f64]) -> Result<(), u32> {
    let (irregular, min, max, n, list) = run.distance.flat();
    let (form, value) = run.kind.flat();
    let (value_irregular, value_min, value_max, value_n, value_list) = value.flat();
    // SAFETY: above.
    refusal(unsafe {
        c::pairstat_points_cross(
            a.positions.as_ptr(),
            a.positions.len(),
            a.values.as_ptr(),
            a.values.len(),
            a.weights.as_ptr(),
            a.weights.len(),
            a.count,
            a.stride.is_some() as u64,
            a.stride.unwrap_or(0),
            b.positions.as_ptr(),
            b.positions.len(),
            b.values.as_ptr(),
            b.values.len(),
            b.weights.as_ptr(),
            b.weights.len(),
            b.count,
            b.stride.is_some() as u64,
            b.stride.unwrap_or(0),
            irregular,
            min,
            max,
            n,
            list.as_ptr(),
            list.len(),
            form,
            value_irregular,
            value_min,
            value_max,
            value_n,
            value_list.as_ptr(),
            value_list.len(),
            run.operation as u64,
            run.shape.states,
            run.shape.size,
            run.members,
            run.teams,
            pack.as_mut_ptr(),
            pack.len(),
        )
    })
}

/// Every pair of cells of one block once, added to the pack; widths in z, y, x order.
pub fn blocks_auto(a: &Block, widths: [f64; 3], run: &Run, pack: &mut [f64]) -> Result<(), u32> {
    let (irregular, min, max, n, list) = run.distance.flat();
    let (form, value) = run.kind.flat();
    let (value_irregular, value_min, value_max, value_n, value_list) = value.flat();
    // SAFETY: above.
    refusal(unsafe {
        c::pairstat_blocks_auto(
            a.components[0].as_ptr(),
            a.components[0].len(),
            a.components[1].as_ptr(),
            a.components[1].len(),
            a.components[2].as_ptr(),
            a.components[2].len(),
            a.weights.as_ptr(),
            a.weights.len(),
            a.shape[0],
            a.shape[1],
            a.shape[2],
            a.strides[0],
            a.strides[1],
            a.strides[2],
            a.offsets[0],
            a.offsets[1],
            a.offsets[2],
            widths[0],
            widths[1],
            widths[2],
            irregular,
            min,
            max,
            n,
            list.as_ptr(),
            list.len(),
            form,
            value_irregular,
            value_min,
            value_max,
            value_n,
            value_list.as_ptr(),
            value_list.len(),
            run.operation as u64,
            run.shape.states,
            run.shape.size,
            run.members,
            run.teams,
            pack.as_mut_ptr(),
            pack.len(),
        )
    })
}

/// Every cell of `a` with every cell of `b`, added to the pack; widths in z, y, x order.
pub fn blocks_cross(
    a: &Block,
    b: &Block,
    widths: [f64; 3],
    run: &Run,
    pack: &mut [f64],
) -> Result<(), u32> {
    let (irregular, min, max, n, list) = run.distance.flat();
    let (form, value) = run.kind.flat();
    let (value_irregular, value_min, value_max, value_n, value_list) = value.flat();
    // SAFETY: above.
    refusal(unsafe {
        c::pairstat_blocks_cross(
            a.components[0].as_ptr(),
            a.components[0].len(),
            a.components[1].as_ptr(),
            a.components[1].len(),
            a.components[2].as_ptr(),
            a.components[2].len(),
            a.weights.as_ptr(),
            a.weights.len(),
            a.shape[0],
            a.shape[1],
            a.shape[2],
            a.strides[0],
            a.strides[1],
            a.strides[2],
            a.offsets[0],
            a.offsets[1],
            a.offsets[2],
            b.components[0].as_ptr(),
            b.components[0].len(),
            b.components[1].as_ptr(),
            b.components[1].len(),
            b.components[2].as_ptr(),
            b.components[2].len(),
            b.weights.as_ptr(),
            b.weights.len(),
            b.shape[0],
            b.shape[1],
            b.shape[2],
            b.strides[0],
            b.strides[1],
            b.strides[2],
            b.offsets[0],
            b.offsets[1],
            b.offsets[2],
            widths[0],
            widths[1],
            widths[2],
            irregular,
            min,
            max,
            n,
            list.as_ptr(),
            list.len(),
            form,
            value_irregular,
            value_min,
            value_max,
            value_n,
            value_list.as_ptr(),
            value_list.len(),
            run.operation as u64,
            run.shape.states,
            run.shape.size,
            run.members,
            run.teams,
            pack.as_mut_ptr(),
            pack.len(),
        )
    })
}
