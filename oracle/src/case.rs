//! The operations of document 01 with their arguments, as plain data.

/// Bin edges as a caller gives them, valid or not.
#[derive(Clone)]
pub enum Edges {
    Regular { min: f64, max: f64, n: usize },
    Irregular(Vec<f64>),
}

impl Edges {
    /// The number of bins stated; edges too few for one bin state none.
    pub fn bins(&self) -> usize {
        match self {
            Edges::Regular { n, .. } => *n,
            Edges::Irregular(edges) => edges.len().saturating_sub(1),
        }
    }
}

/// What a state accumulates.
#[derive(Clone, Copy, PartialEq, Eq)]
pub enum Form {
    Comp0Mean,
    SumMean,
    Histogram,
}

pub const FORMS: [Form; 3] = [Form::Comp0Mean, Form::SumMean, Form::Histogram];

/// A kind as the pack operations take it; `value_bins` counts for a histogram alone.
#[derive(Clone, Copy)]
pub struct Kind {
    pub form: Form,
    pub value_bins: usize,
}

impl Kind {
    /// Numbers of one state.
    pub fn size(&self) -> usize {
        match self.form {
            Form::Histogram => self.value_bins,
            _ => 2,
        }
    }
}

/// A pack: the shape that the caller states, and the slice lent.
#[derive(Clone)]
pub struct Pack {
    pub states: usize,
    pub size: usize,
    pub slice: Vec<f64>,
}

#[derive(Clone)]
pub struct Points {
    pub count: usize,
    pub stride: Option<usize>,
    pub positions: Vec<f64>,
    pub values: Vec<f64>,
    pub weights: Vec<f64>,
}

#[derive(Clone)]
pub struct Block {
    pub shape: [usize; 3],
    pub strides: [usize; 3],
    pub offsets: [i64; 3],
    pub components: [Vec<f64>; 3],
    pub weights: Vec<f64>,
}

/// What both runs take beside their data; `value` counts for a histogram alone.
#[derive(Clone)]
pub struct Rest {
    pub subtract: bool,
    pub form: Form,
    pub distance: Edges,
    pub value: Edges,
    pub pack: Pack,
    pub members: u32,
    pub teams: u32,
}

impl Rest {
    /// The kind that the run's form and value edges make.
    pub fn kind(&self) -> Kind {
        let value_bins = match self.form {
            Form::Histogram => self.value.bins(),
            _ => 0,
        };
        Kind {
            form: self.form,
            value_bins,
        }
    }
}

#[derive(Clone)]
pub struct PointsRun {
    pub a: Points,
    pub b: Option<Points>,
    pub rest: Rest,
}

#[derive(Clone)]
pub struct BlockRun {
    pub a: Block,
    pub b: Option<Block>,
    pub widths: [f64; 3],
    pub rest: Rest,
}

#[derive(Clone)]
pub struct Segments {
    pub indices: usize,
    pub index: usize,
    pub segments: usize,
}

#[derive(Clone)]
pub struct Lookup {
    pub edges: Edges,
    pub value: f64,
}

#[derive(Clone)]
pub struct Reset {
    pub kind: Kind,
    pub pack: Pack,
}

#[derive(Clone)]
pub struct Merge {
    pub kind: Kind,
    pub pack: Pack,
    pub other: Pack,
}

#[derive(Clone)]
pub struct Consolidation {
    pub kind: Kind,
    pub packs: usize,
    /// The shape of one pack, and the slice that holds all of them.
    pub pack: Pack,
}

#[derive(Clone)]
pub struct StateResult {
    pub kind: Kind,
    pub pack: Pack,
    pub index: usize,
    pub value: Vec<f64>,
}

#[derive(Clone)]
pub struct Offsets {
    pub a: Block,
    pub b: Option<Block>,
    pub widths: [f64; 3],
}

#[derive(Clone)]
pub enum Case {
    Lookup(Lookup),
    Segments(Segments),
    Reset(Reset),
    Merge(Merge),
    Consolidation(Consolidation),
    Result(StateResult),
    Points(PointsRun),
    Blocks(BlockRun),
    Offsets(Offsets),
}

/// The names under which cases are counted.
pub const NAMES: [&str; 13] = [
    "regular lookup",
    "irregular lookup",
    "segments",
    "reset",
    "merge",
    "consolidation",
    "result",
    "points auto",
    "points cross",
    "block auto",
    "block cross",
    "offsets auto",
    "offsets cross",
];

impl Case {
    /// Place of the case's operation in `NAMES`.
    pub fn operation(&self) -> usize {
        match self {
            Case::Lookup(x) => matches!(x.edges, Edges::Irregular(_)) as usize,
            Case::Segments(_) => 2,
            Case::Reset(_) => 3,
            Case::Merge(_) => 4,
            Case::Consolidation(_) => 5,
            Case::Result(_) => 6,
            Case::Points(x) => 7 + x.b.is_some() as usize,
            Case::Blocks(x) => 9 + x.b.is_some() as usize,
            Case::Offsets(x) => 11 + x.b.is_some() as usize,
        }
    }

    /// What a run takes beside its data.
    pub fn rest(&self) -> Option<&Rest> {
        match self {
            Case::Points(x) => Some(&x.rest),
            Case::Blocks(x) => Some(&x.rest),
            _ => None,
        }
    }

    pub fn rest_mut(&mut self) -> Option<&mut Rest> {
        match self {
            Case::Points(x) => Some(&mut x.rest),
            Case::Blocks(x) => Some(&mut x.rest),
            _ => None,
        }
    }
}
