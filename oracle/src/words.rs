//! Cases and answers as words: the fixed list's records.
use crate::answer::{Answer, bits};
use crate::case::*;

/// The operation codes of the fixed list; a listing of offsets has none.
pub fn code(case: &Case) -> Option<u64> {
    Some(match case {
        Case::Lookup(x) => match x.edges {
            Edges::Regular { .. } => 1,
            Edges::Irregular(_) => 2,
        },
        Case::Segments(_) => 3,
        Case::Reset(_) => 4,
        Case::Merge(_) => 5,
        Case::Consolidation(_) => 6,
        Case::Result(_) => 7,
        Case::Points(_) => 8,
        Case::Blocks(_) => 9,
        Case::Offsets(_) => return None,
    })
}

/// Words in the making.
#[derive(Default)]
struct Words(Vec<u64>);

impl Words {
    fn sizes(&mut self, sizes: &[usize]) {
        self.0.extend(sizes.iter().map(|n| *n as u64));
    }

    fn floats(&mut self, floats: &[f64]) {
        self.0.extend(floats.iter().map(|x| x.to_bits()));
    }

    fn edges(&mut self, edges: &Edges) {
        match edges {
            Edges::Regular { min, max, n } => {
                self.sizes(&[0]);
                self.floats(&[*min, *max]);
                self.sizes(&[*n]);
            }
            Edges::Irregular(list) => {
                self.sizes(&[1, list.len()]);
                self.floats(list);
            }
        }
    }

    fn kind(&mut self, kind: &Kind) {
        self.sizes(&[form_code(kind.form), kind.value_bins]);
    }

    fn points(&mut self, p: &Points) {
        let given = p.stride.is_some() as usize;
        self.sizes(&[p.count, given, p.stride.unwrap_or(0)]);
        self.sizes(&[p.positions.len(), p.values.len(), p.weights.len()]);
        self.floats(&p.positions);
        self.floats(&p.values);
        self.floats(&p.weights);
    }

    fn block(&mut self, b: &Block) {
        self.sizes(&b.shape);
        self.sizes(&b.strides);
        self.0.extend(b.offsets.map(|d| d as u64));
        let columns = || b.components.iter().chain([&b.weights]);
        columns().for_each(|c| self.sizes(&[c.len()]));
        columns().for_each(|c| self.floats(c));
    }

    fn rest(&mut self, rest: &Rest) {
        self.edges(&rest.distance);
        if rest.form == Form::Histogram {
            self.edges(&rest.value);
        }
        self.sizes(&[rest.pack.states, rest.pack.size]);
        self.sizes(&[rest.members as usize, rest.teams as usize]);
        self.sizes(&[rest.pack.slice.len()]);
        self.floats(&rest.pack.slice);
    }

    fn head(&mut self, cross: bool, rest: &Rest) {
        self.sizes(&[cross as usize, rest.subtract as usize, form_code(rest.form)]);
    }
}

fn form_code(form: Form) -> usize {
    match form {
        Form::Comp0Mean => 0,
        Form::SumMean => 1,
        Form::Histogram => 2,
    }
}

/// The inputs of a case.
pub fn inputs(case: &Case) -> Vec<u64> {
    let mut w = Words::default();
    match case {
        Case::Lookup(x) => {
            w.edges(&x.edges);
            w.0.remove(0);
            w.floats(&[x.value]);
        }
        Case::Segments(x) => w.sizes(&[x.indices, x.index, x.segments]),
        Case::Points(x) => {
            w.head(x.b.is_some(), &x.rest);
            w.points(&x.a);
            x.b.iter().for_each(|b| w.points(b));
            w.rest(&x.rest);
        }
        Case::Blocks(x) => {
            w.head(x.b.is_some(), &x.rest);
            w.block(&x.a);
            x.b.iter().for_each(|b| w.block(b));
            w.floats(&x.widths);
            w.rest(&x.rest);
        }
        Case::Offsets(x) => {
            w.block(&x.a);
            x.b.iter().for_each(|b| w.block(b));
            w.floats(&x.widths);
        }
        _ => pack_inputs(case, &mut w),
    }
    w.0
}

fn pack_inputs(case: &Case, w: &mut Words) {
    match case {
        Case::Reset(x) => {
            w.kind(&x.kind);
            w.sizes(&[x.pack.states, x.pack.size, x.pack.slice.len()]);
            w.floats(&x.pack.slice);
        }
        Case::Merge(x) => {
            w.kind(&x.kind);
            w.sizes(&[x.pack.states, x.pack.size, x.other.states, x.other.size]);
            w.sizes(&[x.pack.slice.len(), x.other.slice.len()]);
            w.floats(&x.pack.slice);
            w.floats(&x.other.slice);
        }
        Case::Consolidation(x) => {
            w.kind(&x.kind);
            w.sizes(&[x.packs, x.pack.states, x.pack.size, x.pack.slice.len()]);
            w.floats(&x.pack.slice);
        }
        Case::Result(x) => {
            w.kind(&x.kind);
            w.sizes(&[x.pack.states, x.pack.size, x.index]);
            w.sizes(&[x.pack.slice.len(), x.value.len()]);
            w.floats(&x.pack.slice);
            w.floats(&x.value);
        }
        _ => unreachable!(),
    }
}

/// The slice that an operation may write, as it is lent.
fn lent(case: &Case) -> &[f64] {
    match case {
        Case::Reset(x) => &x.pack.slice,
        Case::Merge(x) => &x.pack.slice,
        Case::Consolidation(x) => &x.pack.slice,
        Case::Result(x) => &x.value,
        Case::Points(x) => &x.rest.pack.slice,
        Case::Blocks(x) => &x.rest.pack.slice,
        _ => &[],
    }
}

/// The answer in the form of the case's operation: a number, then values, then the slice after.
pub fn expected(case: &Case, answer: &Answer) -> Vec<u64> {
    let slice = |s: &[f64]| s.iter().map(|x| bits(*x)).collect::<Vec<_>>();
    match answer {
        Answer::Found(found) => vec![0, found.is_some() as u64, found.unwrap_or(0) as u64],
        Answer::Bounds(start, stop) => vec![0, *start as u64, *stop as u64],
        Answer::Slice(after) => [vec![0], slice(after)].concat(),
        Answer::Refused(number) => match case {
            Case::Lookup(_) | Case::Segments(_) => vec![*number, 0, 0],
            _ => [vec![*number], slice(lent(case))].concat(),
        },
        _ => unreachable!("no answer of an operation of the list"),
    }
}

/// A whole record: code, number of words that follow, inputs, answer.
pub fn record(case: &Case, answer: &Answer) -> Vec<u64> {
    let body = [inputs(case), expected(case, answer)].concat();
    let code = code(case).expect("an operation of the list");
    [vec![code, body.len() as u64], body].concat()
}
