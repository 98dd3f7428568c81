//! Calls made from a seed.
use crate::check::Call;
use harness::family::Family;
use harness::rng::Rng;

pub const FAMILIES: [Family; 6] = [
    Family::Whole,
    Family::Eighths,
    Family::Full,
    Family::Wide,
    Family::Mixed,
    Family::Bits,
];

/// Surveys from the harness's numbers.
pub struct Stream(pub Rng);

impl Stream {
    pub fn new(seed: u64) -> Stream {
        Stream(Rng::new(seed))
    }

    /// Point records.
    pub fn points(&mut self, family: Family, count: usize) -> Vec<u8> {
        let numbers = family.list(&mut self.0, count * 7);
        numbers.into_iter().flat_map(f64::to_le_bytes).collect()
    }

    /// Edge records that the rules accept: rising, finite, `bins` of them or fewer.
    pub fn edges(&mut self, family: Family, bins: usize) -> Vec<u8> {
        let mut edges: Vec<f64> = (0..=bins).map(|_| self.edge(family, bins)).collect();
        edges.sort_by(f64::total_cmp);
        edges.dedup_by(|b, a| *b <= *a);
        if edges.len() < 2 {
            edges = vec![-0.0, 300.0];
        }
        edges.into_iter().flat_map(f64::to_le_bytes).collect()
    }

    fn edge(&mut self, family: Family, bins: usize) -> f64 {
        match family {
            Family::Whole => self.0.below(2 * bins + 200) as f64 - 1.0,
            Family::Eighths => self.0.below(40_000) as f64 / 64.0,
            Family::Bits => {
                let x = f64::from_bits(self.0.word());
                if x.is_finite() { x } else { 0.0 }
            }
            _ => self.0.unit() * 2f64.powi(self.0.below(12) as i32 - 1),
        }
    }

    /// A call that is accepted, with points and bins up to these counts.
    pub fn call(&mut self, family: Family, points: usize, bins: usize) -> Call {
        let count = self.0.within(1, points);
        let points = self.points(family, count);
        let bins = self.0.within(1, bins);
        Call::new(points, self.edges(family, bins))
    }
}

/// The call with something wrong, or changed, in its bytes or lengths.
pub fn damaged(rng: &mut Rng, call: &Call) -> Call {
    let mut call = call.clone();
    match rng.below(10) {
        0 => cut(rng, &mut call.points),
        1 => cut(rng, &mut call.edges),
        2 => call.output = rng.below(call.output + 40),
        3 => flip(rng, &mut call.points),
        4 => flip(rng, &mut call.edges),
        5 => call.points.resize(rng.within(57_280, 57_480), 1),
        6 => call.edges.resize(rng.within(2_040, 2_080), 1),
        7 => odd(rng, &mut call.edges),
        8 => odd(rng, &mut call.points),
        _ => swap(rng, &mut call.edges),
    }
    call
}

/// Cut anywhere, or at a whole record.
fn cut(rng: &mut Rng, bytes: &mut Vec<u8>) {
    let keep = rng.below(bytes.len() + 1);
    bytes.truncate(match rng.below(2) {
        0 => keep,
        _ => keep - keep % 56,
    });
}

/// One bit turned over.
fn flip(rng: &mut Rng, bytes: &mut [u8]) {
    if !bytes.is_empty() {
        let at = rng.below(bytes.len());
        bytes[at] ^= 1 << rng.below(8);
    }
}

/// One number replaced by a special one, a NaN by any NaN.
fn odd(rng: &mut Rng, bytes: &mut [u8]) {
    let mut number = rng.special();
    if number.is_nan() {
        number = f64::from_bits(0x7ff0_0000_0000_0001 | rng.word());
    }
    if bytes.len() >= 8 {
        let at = rng.below(bytes.len() / 8) * 8;
        bytes[at..at + 8].copy_from_slice(&number.to_le_bytes());
    }
}

/// Two numbers change places.
fn swap(rng: &mut Rng, bytes: &mut [u8]) {
    if bytes.len() >= 8 {
        let count = bytes.len() / 8;
        let (i, j) = (rng.below(count) * 8, rng.below(count) * 8);
        for k in 0..8 {
            bytes.swap(i + k, j + k);
        }
    }
}
