//! A call to be timed: its sets and what every run takes beside them.
use entries::{Block, Edges, Kind, Operation, PackShape, Points, Run};

#[derive(Clone, Copy)]
pub enum Sets<'a> {
    Points(Points<'a>, Option<Points<'a>>),
    Blocks(Block<'a>, Option<Block<'a>>, [f64; 3]),
}

#[derive(Clone, Copy)]
pub struct Case<'a> {
    pub sets: Sets<'a>,
    pub run: Run<'a>,
}

fn bins(edges: Edges) -> usize {
    match edges {
        Edges::Regular { n, .. } => n,
        Edges::Irregular(list) => list.len() - 1,
    }
}

impl<'a> Case<'a> {
    pub fn new(sets: Sets<'a>, distance: Edges<'a>, kind: Kind<'a>) -> Self {
        let size = match kind {
            Kind::ComponentSumHistogram(value) => bins(value),
            _ => 2,
        };
        let shape = PackShape {
            states: bins(distance),
            size,
        };
        let run = Run {
            distance,
            kind,
            operation: Operation::Multiply,
            shape,
            members: 1,
            teams: 1,
        };
        Case { sets, run }
    }

    /// How many numbers the pack has.
    pub fn numbers(&self) -> usize {
        self.run.shape.states * self.run.shape.size
    }

    /// How many pairs the sets have.
    pub fn pairs(&self) -> usize {
        let cells = |b: &Block| b.shape.iter().product::<usize>();
        let auto = |n: usize| n * (n - 1) / 2;
        match &self.sets {
            Sets::Points(a, None) => auto(a.count),
            Sets::Points(a, Some(b)) => a.count * b.count,
            Sets::Blocks(a, None, _) => auto(cells(a)),
            Sets::Blocks(a, Some(b), _) => cells(a) * cells(b),
        }
    }
}

/// The verified library.
pub fn library(case: &Case, pack: &mut [f64]) {
    let said = match &case.sets {
        Sets::Points(a, None) => entries::points_auto(a, &case.run, pack),
        Sets::Points(a, Some(b)) => entries::points_cross(a, b, &case.run, pack),
        Sets::Blocks(a, None, width) => entries::blocks_auto(a, *width, &case.run, pack),
        Sets::Blocks(a, Some(b), width) => entries::blocks_cross(a, b, *width, &case.run, pack),
    };
    said.expect("the library refuses");
}
