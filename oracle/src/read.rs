//! Records back into cases.
use crate::case::*;

/// The words of a record, read from the front.
pub struct Reader<'a>(pub &'a [u64]);

impl Reader<'_> {
    fn word(&mut self) -> u64 {
        let (first, others) = self.0.split_first().expect("the record is too short");
        self.0 = others;
        *first
    }

    fn size(&mut self) -> usize {
        self.word() as usize
    }

    fn sizes<const N: usize>(&mut self) -> [usize; N] {
        [0; N].map(|_| self.size())
    }

    fn float(&mut self) -> f64 {
        f64::from_bits(self.word())
    }

    fn floats(&mut self, len: usize) -> Vec<f64> {
        (0..len).map(|_| self.float()).collect()
    }

    fn edges_of(&mut self, regular: bool) -> Edges {
        if regular {
            let (min, max) = (self.float(), self.float());
            let n = self.size();
            Edges::Regular { min, max, n }
        } else {
            let len = self.size();
            Edges::Irregular(self.floats(len))
        }
    }

    fn edges(&mut self) -> Edges {
        let regular = self.word() == 0;
        self.edges_of(regular)
    }

    fn form(&mut self) -> Form {
        match self.word() {
            0 => Form::Comp0Mean,
            1 => Form::SumMean,
            _ => Form::Histogram,
        }
    }

    fn kind(&mut self) -> Kind {
        let form = self.form();
        let value_bins = self.size();
        Kind { form, value_bins }
    }

    fn pack(&mut self, states: usize, size: usize, len: usize) -> Pack {
        let slice = self.floats(len);
        Pack {
            states,
            size,
            slice,
        }
    }

    fn points(&mut self) -> Points {
        let [count, given, stride, positions, values, weights] = self.sizes();
        Points {
            count,
            stride: (given == 1).then_some(stride),
            positions: self.floats(positions),
            values: self.floats(values),
            weights: self.floats(weights),
        }
    }

    fn block(&mut self) -> Block {
        let (shape, strides) = (self.sizes(), self.sizes());
        let offsets = [0; 3].map(|_| self.word() as i64);
        let [z, y, x, weights] = self.sizes();
        Block {
            shape,
            strides,
            offsets,
            components: [z, y, x].map(|len| self.floats(len)),
            weights: self.floats(weights),
        }
    }

    fn rest(&mut self, subtract: bool, form: Form) -> Rest {
        let distance = self.edges();
        let value = match form {
            Form::Histogram => self.edges(),
            _ => Edges::Irregular(Vec::new()),
        };
        let [states, size, members, teams, len] = self.sizes();
        Rest {
            subtract,
            form,
            distance,
            value,
            pack: self.pack(states, size, len),
            members: members as u32,
            teams: teams as u32,
        }
    }

    fn points_run(&mut self) -> PointsRun {
        let (cross, subtract) = (self.word() == 1, self.word() == 1);
        let form = self.form();
        let a = self.points();
        let b = cross.then(|| self.points());
        let rest = self.rest(subtract, form);
        PointsRun { a, b, rest }
    }

    fn block_run(&mut self) -> BlockRun {
        let (cross, subtract) = (self.word() == 1, self.word() == 1);
        let form = self.form();
        let a = self.block();
        let b = cross.then(|| self.block());
        let widths = [0; 3].map(|_| self.float());
        let rest = self.rest(subtract, form);
        BlockRun { a, b, widths, rest }
    }

    fn merge(&mut self) -> Merge {
        let kind = self.kind();
        let [states, size, states2, size2, len, len2] = self.sizes();
        let pack = self.pack(states, size, len);
        let other = self.pack(states2, size2, len2);
        Merge { kind, pack, other }
    }

    fn result(&mut self) -> StateResult {
        let kind = self.kind();
        let [states, size, index, len, room] = self.sizes();
        let pack = self.pack(states, size, len);
        let value = self.floats(room);
        StateResult {
            kind,
            pack,
            index,
            value,
        }
    }

    /// The case of an operation code; what is left is its answer.
    pub fn case(&mut self, code: u64) -> Case {
        match code {
            1 | 2 => {
                let edges = self.edges_of(code == 1);
                let value = self.float();
                Case::Lookup(Lookup { edges, value })
            }
            3 => {
                let [indices, index, segments] = self.sizes();
                Case::Segments(Segments {
                    indices,
                    index,
                    segments,
                })
            }
            4 => {
                let kind = self.kind();
                let [states, size, len] = self.sizes();
                let pack = self.pack(states, size, len);
                Case::Reset(Reset { kind, pack })
            }
            5 => Case::Merge(self.merge()),
            6 => {
                let kind = self.kind();
                let [packs, states, size, len] = self.sizes();
                let pack = self.pack(states, size, len);
                Case::Consolidation(Consolidation { kind, packs, pack })
            }
            7 => Case::Result(self.result()),
            8 => Case::Points(self.points_run()),
            9 => Case::Blocks(self.block_run()),
            _ => panic!("no operation has the code {code}"),
        }
    }
}

/// Splits words into records: code and body.
pub fn records(mut words: &[u64]) -> Vec<(u64, &[u64])> {
    let mut all = Vec::new();
    while let [code, len, others @ ..] = words {
        let (body, left) = others.split_at(*len as usize);
        all.push((*code, body));
        words = left;
    }
    assert!(words.is_empty(), "a record is cut off");
    all
}
