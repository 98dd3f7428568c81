//! The published Rust, each call with its own types, as a user of it would write.
use crate::case::{Case, Sets};
use entries::{Block, Edges, Kind, Points};
use pairstat::SerialExecutor;
use pairstat_nostd_internal::{
    BinEdges, CartesianBlock, CellWidth, ComponentSumHistogram, ComponentSumMean,
    IrregularBinEdges, PairOperation, Reducer, ReductionSpec, RegularBinEdges, StatePackViewMut,
    TwoPointCartesian, TwoPointUnstructured, UnstructuredPoints, View3DSpec,
};
use std::num::NonZeroU32;

const MULTIPLY: PairOperation = PairOperation::ElementwiseMultiply;

fn points<'a>(p: &Points<'a>) -> UnstructuredPoints<'a> {
    UnstructuredPoints::new(p.positions, p.values, p.weights, p.count, p.stride)
        .expect("points refused")
}

fn block<'a>(b: &Block<'a>) -> CartesianBlock<'a> {
    let layout = View3DSpec::from_shape_strides(b.shape, b.strides).expect("layout refused");
    let offsets = b.offsets.map(|d| d as isize);
    CartesianBlock::new(b.components, b.weights, layout, offsets).expect("block refused")
}

fn drive(case: &Case, spec: &impl ReductionSpec, pack: &mut [f64]) {
    let shape = case.run.shape;
    let mut out = StatePackViewMut::from_slice(shape.states, shape.size, pack);
    let one = NonZeroU32::MIN;
    let said = SerialExecutor.drive_reduce(&mut out, spec, one, one);
    assert!(said.is_ok(), "run refused");
}

fn run<R: Reducer, E: BinEdges>(case: &Case, reducer: R, edges: E, pack: &mut [f64]) {
    match &case.sets {
        Sets::Points(a, b) => {
            let b = b.as_ref().map(points);
            let spec = TwoPointUnstructured::new(reducer, points(a), b, edges, MULTIPLY);
            drive(case, &spec.expect("spec refused"), pack);
        }
        Sets::Blocks(a, b, width) => {
            let b = b.as_ref().map(block);
            let width = CellWidth::new(*width).expect("width refused");
            let spec = TwoPointCartesian::new(reducer, block(a), b, width, edges, MULTIPLY);
            drive(case, &spec.expect("spec refused"), pack);
        }
    }
}

fn regular(min: f64, max: f64, n: usize) -> RegularBinEdges {
    RegularBinEdges::new(min, max, n).expect("edges refused")
}

fn irregular(list: &[f64]) -> IrregularBinEdges<'_> {
    IrregularBinEdges::new(list).expect("edges refused")
}

fn reduce<R: Reducer>(case: &Case, reducer: R, pack: &mut [f64]) {
    match case.run.distance {
        Edges::Regular { min, max, n } => run(case, reducer, regular(min, max, n), pack),
        Edges::Irregular(list) => run(case, reducer, irregular(list), pack),
    }
}

/// The published Rust's run.
pub fn original(case: &Case, pack: &mut [f64]) {
    match case.run.kind {
        Kind::ComponentSumHistogram(Edges::Regular { min, max, n }) => {
            let edges = regular(min, max, n);
            reduce(case, ComponentSumHistogram::from_bin_edges(edges), pack)
        }
        Kind::ComponentSumHistogram(Edges::Irregular(list)) => {
            let edges = irregular(list);
            reduce(case, ComponentSumHistogram::from_bin_edges(edges), pack)
        }
        Kind::ComponentSumMean => reduce(case, ComponentSumMean::new(), pack),
        Kind::Comp0Mean => unreachable!("not timed"),
    }
}
