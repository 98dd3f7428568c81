//! One call put to the entry and held against what is due.
use crate::oracle;
use rumbeshyq::curve_bytes;
use std::collections::BTreeMap;

/// What a call is handed; the output by its length.
#[derive(Clone)]
pub struct Call {
    pub points: Vec<u8>,
    pub edges: Vec<u8>,
    pub output: usize,
}

impl Call {
    /// A call with room for just the curve.
    pub fn new(points: Vec<u8>, edges: Vec<u8>) -> Call {
        let output = (edges.len() / 8).saturating_sub(1) * 16;
        Call {
            points,
            edges,
            output,
        }
    }
}

/// How often each answer was given; 0 is accepted.
#[derive(Default)]
pub struct Tally(BTreeMap<u32, usize>);

impl Tally {
    pub fn of(&self, number: u32) -> usize {
        self.0.get(&number).copied().unwrap_or(0)
    }

    /// Holds one call against what is due, and counts it.
    pub fn check(&mut self, call: &Call) {
        let due = due(call);
        let number = match &due {
            Ok(_) => 0,
            Err(number) => *number,
        };
        let calls: usize = self.0.values().sum();
        *self.0.entry(number).or_default() += 1;
        if let Err(text) = compare(call, due, 1 + calls % 8) {
            panic!("{text}\n{}", shown(call));
        }
    }
}

/// The curve's bytes or the number, in the order 7, 27, points, edges, 24.
fn due(call: &Call) -> Result<Vec<u8>, u32> {
    if call.points.len() > 57_344 || call.edges.len() > 2_056 {
        return Err(7);
    }
    if call.points.len() % 56 != 0 || call.edges.len() % 8 != 0 {
        return Err(27);
    }
    let curve = oracle::curve(&call.points, &call.edges)?;
    match call.output == curve.len() {
        true => Ok(curve),
        false => Err(24),
    }
}

/// Bytes that nothing else writes.
fn filler(len: usize) -> Vec<u8> {
    (0..len).map(|i| (i * 37 + 11) as u8).collect()
}

/// The call, its inputs `shift` bytes past a word, the output between bytes that must stay.
fn compare(call: &Call, due: Result<Vec<u8>, u32>, shift: usize) -> Result<(), String> {
    let moved = |bytes: &[u8]| [vec![0; shift], bytes.to_vec()].concat();
    let (points, edges) = (moved(&call.points), moved(&call.edges));
    let whole = filler(call.output + 64);
    let mut room = whole.clone();
    let place = 17..17 + call.output;
    let (p, e) = (&points[shift..], &edges[shift..]);
    let said = curve_bytes(p, e, &mut room[place.clone()]);
    if p != call.points || e != call.edges {
        return Err("an input was changed".to_string());
    }
    let mut wanted = whole;
    let number = match due {
        Ok(curve) => {
            wanted[place].copy_from_slice(&curve);
            0
        }
        Err(number) => number,
    };
    let said = said.map_or_else(|refusal| refusal.number, |()| 0);
    if said != number {
        return Err(format!("the entry says {said}, {number} is due"));
    }
    match room.iter().zip(&wanted).position(|(a, b)| a != b) {
        Some(at) => Err(format!("byte {} of the output differs", at as i64 - 17)),
        None => Ok(()),
    }
}

/// A call for the eye: lengths, and the numbers if they are few.
fn shown(call: &Call) -> String {
    let numbers = |bytes: &[u8]| {
        let words = bytes.chunks_exact(8).take(40);
        let text = words.map(|b| f64::from_le_bytes(b.try_into().expect("eight bytes")));
        text.map(|x| format!("{x:?}")).collect::<Vec<_>>().join(" ")
    };
    format!(
        "points {} bytes: {}\nedges {} bytes: {}\noutput {} bytes",
        call.points.len(),
        numbers(&call.points),
        call.edges.len(),
        numbers(&call.edges),
        call.output
    )
}
