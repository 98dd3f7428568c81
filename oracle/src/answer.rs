//! What an operation answers, from the Rust or from the model.

/// The one NaN that answers are written with.
pub const NAN_BITS: u64 = 0x7ff8000000000000;

/// The bits of an f64, all NaNs as one.
pub fn bits(x: f64) -> u64 {
    if x.is_nan() { NAN_BITS } else { x.to_bits() }
}

/// One entry of an offsets listing.
#[derive(Clone)]
pub struct Entry {
    pub offset: [i64; 3],
    pub pairs: usize,
    pub distance: f64,
}

#[derive(Clone)]
pub enum Answer {
    Found(Option<usize>),
    Bounds(usize, usize),
    /// A lent slice as the operation left it.
    Slice(Vec<f64>),
    Listing(Vec<Entry>),
    Refused(u64),
    Panic,
    /// The Rust can't be asked, for the reason given.
    NotAsked(&'static str),
}

impl Answer {
    /// The answer as words, for comparing: a tag, then the values.
    pub fn words(&self) -> Vec<u64> {
        match self {
            Answer::Found(None) => vec![0],
            Answer::Found(Some(i)) => vec![1, *i as u64],
            Answer::Bounds(start, stop) => vec![2, *start as u64, *stop as u64],
            Answer::Slice(s) => [3].into_iter().chain(s.iter().map(|x| bits(*x))).collect(),
            Answer::Listing(entries) => {
                let of = |e: &Entry| {
                    let [z, y, x] = e.offset.map(|d| d as u64);
                    [z, y, x, e.pairs as u64, bits(e.distance)]
                };
                [4].into_iter().chain(entries.iter().flat_map(of)).collect()
            }
            Answer::Refused(number) => vec![5, *number],
            Answer::Panic => vec![6],
            Answer::NotAsked(_) => vec![7],
        }
    }

    pub fn same(&self, other: &Answer) -> bool {
        self.words() == other.words()
    }
}
