#![no_std]
#![allow(dead_code)]
//! Glue: the modules of the published sources and the names that the harness takes from them.
mod bins;
mod misc;
mod parallel;
mod reduce_utils;
mod reducer;
mod state;
mod twopoint;

pub use bins::{BinEdges, IrregularBinEdges, RegularBinEdges};
pub use misc::{View3DSpec, segment_idx_bounds};
pub use parallel::{
    BinnedDatum, ReductionSpec, StandardTeamParam, Team, fill_single_team_binned_statepack,
};
pub use reduce_utils::{
    merge_full_statepacks, reset_full_statepack, serial_consolidate_scratch_statepacks,
};
pub use reducer::{
    Comp0Mean, ComponentSumHistogram, ComponentSumMean, Datum, OutputDescr, Reducer,
};
pub use state::{AccumStateView, AccumStateViewMut, StatePackView, StatePackViewMut};
pub use twopoint::{
    CartesianBlock, CellWidth, PairOperation, TwoPointCartesian, TwoPointUnstructured,
    UnstructuredPoints, listed_offsets,
};
