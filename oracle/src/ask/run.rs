//! The runs and the listing of offsets, put to the Rust.
use super::{Said, wrap};
use crate::answer::{Answer, Entry};
use crate::case::{Block, BlockRun, Offsets, Points, PointsRun, Rest};
use pairstat::SerialExecutor;
use pairstat_nostd_internal::{
    CartesianBlock, CellWidth, PairOperation, ReductionSpec, StatePackViewMut, TwoPointCartesian,
    TwoPointUnstructured, UnstructuredPoints, View3DSpec, listed_offsets,
};
use std::num::NonZeroU32;

fn set(p: &Points) -> Result<UnstructuredPoints<'_>, String> {
    let set = UnstructuredPoints::new(&p.positions, &p.values, &p.weights, p.count, p.stride)?;
    Ok(set)
}

fn block(b: &Block) -> Result<CartesianBlock<'_>, String> {
    let layout = View3DSpec::from_shape_strides(b.shape, b.strides)?;
    let components = [0, 1, 2].map(|k| &b.components[k][..]);
    let offsets = b.offsets.map(|d| d as isize);
    let block = CartesianBlock::new(components, &b.weights, layout, offsets)?;
    Ok(block)
}

fn operation(rest: &Rest) -> PairOperation {
    if rest.subtract {
        PairOperation::ElementwiseSub
    } else {
        PairOperation::ElementwiseMultiply
    }
}

/// Runs the spec into a copy of the caller's slice; a refusal must leave it as it was.
fn drive(rest: &Rest, spec: &impl ReductionSpec) -> Said {
    let members = NonZeroU32::new(rest.members).expect("no members");
    let teams = NonZeroU32::new(rest.teams).expect("no teams");
    let mut slice = rest.pack.slice.clone();
    let mut out = StatePackViewMut::from_slice(rest.pack.states, rest.pack.size, &mut slice);
    let said = SerialExecutor.drive_reduce(&mut out, spec, members, teams);
    match said {
        Ok(()) => Ok(Answer::Slice(slice)),
        Err(refusal) => {
            let bits = |s: &[f64]| s.iter().map(|x| x.to_bits()).collect::<Vec<_>>();
            if bits(&slice) != bits(&rest.pack.slice) {
                return Err("a refusal changed the slice".to_string());
            }
            Err(refusal.to_string())
        }
    }
}

pub fn points(x: &PointsRun) -> Said {
    let a = set(&x.a)?;
    let b = x.b.as_ref().map(set).transpose()?;
    let distance = wrap::edges(&x.rest.distance)?;
    let reducer = wrap::reducer(x.rest.form, &x.rest.value)?;
    let spec = TwoPointUnstructured::new(reducer, a, b, distance, operation(&x.rest))?;
    drive(&x.rest, &spec)
}

pub fn blocks(x: &BlockRun) -> Said {
    let a = block(&x.a)?;
    let b = x.b.as_ref().map(block).transpose()?;
    let widths = CellWidth::new(x.widths)?;
    let distance = wrap::edges(&x.rest.distance)?;
    let reducer = wrap::reducer(x.rest.form, &x.rest.value)?;
    let spec = TwoPointCartesian::new(reducer, a, b, widths, distance, operation(&x.rest))?;
    drive(&x.rest, &spec)
}

pub fn offsets(x: &Offsets) -> Said {
    let a = block(&x.a)?;
    let b = x.b.as_ref().map(block).transpose()?;
    let widths = CellWidth::new(x.widths)?;
    let mut entries = Vec::new();
    listed_offsets(&a, b.as_ref(), &widths, |offset, pairs, distance| {
        entries.push(Entry {
            offset: offset.map(|d| d as i64),
            pairs: pairs as usize,
            distance,
        });
    })?;
    Ok(Answer::Listing(entries))
}
