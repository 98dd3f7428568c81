//! The Rust's edges and reducers, each behind one type that only hands calls on.
use crate::case::{Edges, Form, Kind};
use ndarray::ArrayViewMut1;
use pairstat_nostd_internal::{
    AccumStateView, AccumStateViewMut, BinEdges, Comp0Mean, ComponentSumHistogram,
    ComponentSumMean, Datum, IrregularBinEdges, OutputDescr, Reducer, RegularBinEdges,
};

#[derive(Clone)]
pub enum AnyEdges<'a> {
    Regular(RegularBinEdges),
    Irregular(IrregularBinEdges<'a>),
}

/// Builds the Rust's edges.
pub fn edges(edges: &Edges) -> Result<AnyEdges<'_>, String> {
    Ok(match edges {
        Edges::Regular { min, max, n } => AnyEdges::Regular(RegularBinEdges::new(*min, *max, *n)?),
        Edges::Irregular(list) => AnyEdges::Irregular(IrregularBinEdges::new(list)?),
    })
}

impl AnyEdges<'_> {
    fn inner(&self) -> &dyn BinEdges {
        match self {
            AnyEdges::Regular(edges) => edges,
            AnyEdges::Irregular(edges) => edges,
        }
    }
}

impl BinEdges for AnyEdges<'_> {
    fn bin_index(&self, value: f64) -> Option<usize> {
        self.inner().bin_index(value)
    }
    fn n_bins(&self) -> usize {
        self.inner().n_bins()
    }
    fn leftmost_edge(&self) -> f64 {
        self.inner().leftmost_edge()
    }
}

pub enum AnyReducer<'a> {
    Comp0Mean(Comp0Mean),
    SumMean(ComponentSumMean),
    Histogram(ComponentSumHistogram<AnyEdges<'a>>),
}

/// Builds the Rust's reducer; a histogram builds its value edges.
pub fn reducer(form: Form, value: &Edges) -> Result<AnyReducer<'_>, String> {
    Ok(match form {
        Form::Comp0Mean => AnyReducer::Comp0Mean(Comp0Mean::new()),
        Form::SumMean => AnyReducer::SumMean(ComponentSumMean::new()),
        Form::Histogram => {
            AnyReducer::Histogram(ComponentSumHistogram::from_bin_edges(edges(value)?))
        }
    })
}

/// Edges that give a histogram the kind's count of value bins, wherever they lie.
pub fn stand_in_edges(kind: &Kind) -> Edges {
    Edges::Regular {
        min: 0.0,
        max: 1.0,
        n: kind.value_bins,
    }
}

impl AnyReducer<'_> {
    fn inner(&self) -> &dyn Reducer {
        match self {
            AnyReducer::Comp0Mean(reducer) => reducer,
            AnyReducer::SumMean(reducer) => reducer,
            AnyReducer::Histogram(reducer) => reducer,
        }
    }
}

impl Reducer for AnyReducer<'_> {
    fn accum_state_size(&self) -> usize {
        self.inner().accum_state_size()
    }
    fn init_accum_state(&self, state: &mut AccumStateViewMut) {
        self.inner().init_accum_state(state)
    }
    fn consume(&self, state: &mut AccumStateViewMut, datum: &Datum) {
        self.inner().consume(state, datum)
    }
    fn merge(&self, state: &mut AccumStateViewMut, other: &AccumStateView) {
        self.inner().merge(state, other)
    }
    fn value_from_accum_state(&self, value: &mut ArrayViewMut1<f64>, state: &AccumStateView) {
        self.inner().value_from_accum_state(value, state)
    }
    fn output_descr(&self) -> OutputDescr {
        self.inner().output_descr()
    }
}
