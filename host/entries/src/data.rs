//! What the calls are handed.

/// A set of points: positions and values axis by axis, `stride` numbers apart; `count` where it is left out.
#[derive(Clone, Copy, Debug)]
pub struct Points<'a> {
    pub positions: &'a [f64],
    pub values: &'a [f64],
    pub weights: &'a [f64],
    pub count: usize,
    pub stride: Option<usize>,
}

/// A block of cells; the axes are z, y, x.
#[derive(Clone, Copy, Debug)]
pub struct Block<'a> {
    pub components: [&'a [f64]; 3],
    pub weights: &'a [f64],
    pub shape: [usize; 3],
    pub strides: [usize; 3],
    pub offsets: [i64; 3],
}

/// Bin edges.
#[derive(Clone, Copy, Debug)]
pub enum Edges<'a> {
    Regular { min: f64, max: f64, n: usize },
    Irregular(&'a [f64]),
}

impl<'a> Edges<'a> {
    /// Whether irregular, then min, max, n and the list: what C is handed.
    pub(crate) fn flat(&self) -> (u64, f64, f64, usize, &'a [f64]) {
        match *self {
            Edges::Regular { min, max, n } => (0, min, max, n, &[]),
            Edges::Irregular(list) => (1, 0.0, 0.0, 0, list),
        }
    }
}

/// What a state of a run accumulates; a histogram has value edges.
#[derive(Clone, Copy, Debug)]
pub enum Kind<'a> {
    Comp0Mean,
    ComponentSumMean,
    ComponentSumHistogram(Edges<'a>),
}

impl<'a> Kind<'a> {
    /// The kind's code, and its value edges or any others.
    pub(crate) fn flat(&self) -> (u64, Edges<'a>) {
        match *self {
            Kind::Comp0Mean => (0, Edges::Irregular(&[])),
            Kind::ComponentSumMean => (1, Edges::Irregular(&[])),
            Kind::ComponentSumHistogram(edges) => (2, edges),
        }
    }
}

/// How the values of a pair are combined.
#[derive(Clone, Copy, Debug, PartialEq, Eq)]
pub enum Operation {
    Multiply,
    Subtract,
}

/// What every run takes beside its sets and the pack.
#[derive(Clone, Copy, Debug)]
pub struct Run<'a> {
    /// Edges of squared distances.
    pub distance: Edges<'a>,
    pub kind: Kind<'a>,
    pub operation: Operation,
    pub shape: PackShape,
    pub members: usize,
    pub teams: usize,
}

/// Number e of state s is at e times the states plus s.
#[derive(Clone, Copy, Debug, PartialEq, Eq)]
pub struct PackShape {
    pub states: usize,
    pub size: usize,
}

/// A kind as the pack operations take it; a histogram by its number of value bins.
#[derive(Clone, Copy, Debug, PartialEq, Eq)]
pub enum StateKind {
    Mean,
    Histogram(usize),
}

impl StateKind {
    /// Whether a histogram, and its bins.
    pub(crate) fn flat(&self) -> (u64, usize) {
        match *self {
            StateKind::Mean => (0, 0),
            StateKind::Histogram(bins) => (1, bins),
        }
    }
}
