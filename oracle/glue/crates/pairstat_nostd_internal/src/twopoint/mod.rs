//! Glue: the modules, and a way to list the crate-private sequence of offsets.
mod common;
mod idx_3d_offset;
mod spatial;
mod twopoint_cartesian;
mod unstructured;

pub use common::PairOperation;
pub use spatial::{CartesianBlock, CellWidth};
pub use twopoint_cartesian::TwoPointCartesian;
pub use unstructured::{TwoPointUnstructured, UnstructuredPoints};

/// Calls `f` with offset, number of pairs and squared distance of each entry of the sequence.
pub fn listed_offsets(
    a: &CartesianBlock,
    b: Option<&CartesianBlock>,
    widths: &CellWidth,
    mut f: impl FnMut([isize; 3], isize, f64),
) -> Result<(), &'static str> {
    use idx_3d_offset::{Idx3DOffsetSeq, get_block_a_start_stop_indices};
    let seq = match b {
        Some(b) => Idx3DOffsetSeq::new_cross(a, b)?,
        None => Idx3DOffsetSeq::new_auto(a)?,
    };
    let b = b.unwrap_or(a);
    for i in 0..seq.len() {
        let offset = seq.get(i);
        let (start, stop) = get_block_a_start_stop_indices(&offset, a, b);
        let pairs = (0..3).map(|k| stop[k] - start[k]).product();
        f(*offset.value(), pairs, offset.distance_squared(a, b, widths));
    }
    Ok(())
}
