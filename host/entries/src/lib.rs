//! Every operation of the verified library, linked as `libcapi.a`, as safe Rust over slices.
//!
//! Nothing must be checked beforehand: a call is done, or it is refused with the number of the first rule that
//! it breaks, and then the slice lent holds what it held (of a lookup or a segment, that number too, where it has
//! room for three words). A call takes no memory but its stack, so calls of
//! several threads don't meet.
mod c;
mod call;
mod data;

pub use call::{
    blocks_auto, blocks_cross, irregular_bin_index, irregular_bin_index_into,
    merge_full_statepacks, points_auto, points_cross, regular_bin_index, regular_bin_index_into,
    reset_full_statepack, segment_idx_bounds, segment_idx_bounds_into,
    serial_consolidate_scratch_statepacks, value_from_accum_state,
};
pub use data::{Block, Edges, Kind, Operation, PackShape, Points, Run, StateKind};
