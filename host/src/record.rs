//! Records: numbers are little-endian f64, records have one fixed size, files have no header.
use crate::refusal::Refusal;

/// Bytes of a point record: z, y, x, three values, weight.
pub const POINT_BYTES: usize = 56;
/// Bytes of an edge record.
pub const EDGE_BYTES: usize = 8;
/// Bytes of a curve record: total, weight.
pub const BIN_BYTES: usize = 16;
/// Points that the entry takes at most.
pub const MAX_POINTS: usize = 1024;
/// Edges that the entry takes at most.
pub const MAX_EDGES: usize = 257;

/// One reading.
#[derive(Clone, Copy, Debug, PartialEq)]
pub struct Point {
    /// z, y, x.
    pub position: [f64; 3],
    /// The three components of what was read there.
    pub value: [f64; 3],
    /// The reading's weight.
    pub weight: f64,
}

/// What the pairs of one bin come to.
#[derive(Clone, Copy, Debug, PartialEq)]
pub struct Bin {
    /// The sum of value times weight.
    pub total: f64,
    /// The sum of the weights.
    pub weight: f64,
}

impl Bin {
    /// Total over weight. A bin without pairs has no mean: it is NaN then.
    pub fn mean(&self) -> f64 {
        self.total / self.weight
    }
}

/// A curve: bin i lies from edge i to edge i + 1.
#[derive(Clone, Debug, PartialEq)]
pub struct Curve {
    /// Squared distances, one more than there are bins.
    pub edges: Vec<f64>,
    pub bins: Vec<Bin>,
}

impl Curve {
    /// The curve that is kept as curve records, with the edge records that it was made with.
    ///
    /// Judged as the entry judges edges and its output: 7, 27, 12, 10, 13, 24.
    pub fn of_records(curve: &[u8], edges: &[u8]) -> Result<Curve, Refusal> {
        let edges = edges_of(edges)?;
        if edges.len() < 2 {
            return Err(Refusal::of(12));
        }
        if edges.iter().any(|x| !x.is_finite()) {
            return Err(Refusal::of(10));
        }
        if edges.windows(2).any(|pair| pair[1] <= pair[0]) {
            return Err(Refusal::of(13));
        }
        if curve.len() != (edges.len() - 1) * BIN_BYTES {
            return Err(Refusal::of(24));
        }
        Ok(Curve::of_bytes(curve, edges))
    }

    /// The bins as curve records.
    pub fn records(&self) -> Vec<u8> {
        self.bins
            .iter()
            .flat_map(|bin| [bin.total, bin.weight])
            .flat_map(number_bytes)
            .collect()
    }

    /// The bins from bytes that hold one record for each.
    pub(crate) fn of_bytes(curve: &[u8], edges: Vec<f64>) -> Curve {
        let bins = curve.chunks_exact(BIN_BYTES).map(|record| Bin {
            total: number(record, 0),
            weight: number(record, 1),
        });
        Curve {
            bins: bins.collect(),
            edges,
        }
    }
}

/// Points as records, in their order.
pub fn point_records(points: &[Point]) -> Vec<u8> {
    points
        .iter()
        .flat_map(|p| {
            let [z, y, x] = p.position;
            let [v0, v1, v2] = p.value;
            [z, y, x, v0, v1, v2, p.weight]
        })
        .flat_map(number_bytes)
        .collect()
}

/// Edges as records.
pub fn edge_records(edges: &[f64]) -> Vec<u8> {
    edges.iter().copied().flat_map(number_bytes).collect()
}

/// The points of a record file; 7 for too many, 27 for a length that is not whole records.
pub fn points_of(bytes: &[u8]) -> Result<Vec<Point>, Refusal> {
    whole(bytes, POINT_BYTES, MAX_POINTS)?;
    let points = bytes.chunks_exact(POINT_BYTES).map(|record| Point {
        position: [0, 1, 2].map(|k| number(record, k)),
        value: [3, 4, 5].map(|k| number(record, k)),
        weight: number(record, 6),
    });
    Ok(points.collect())
}

/// The edges of a record file; 7 for too many, 27 for a length that is not whole records.
pub fn edges_of(bytes: &[u8]) -> Result<Vec<f64>, Refusal> {
    whole(bytes, EDGE_BYTES, MAX_EDGES)?;
    let edges = bytes.chunks_exact(EDGE_BYTES);
    Ok(edges.map(|record| number(record, 0)).collect())
}

fn whole(bytes: &[u8], size: usize, most: usize) -> Result<(), Refusal> {
    if bytes.len() > most * size {
        return Err(Refusal::of(7));
    }
    if bytes.len() % size != 0 {
        return Err(Refusal::of(27));
    }
    Ok(())
}

/// Number k of a record.
fn number(record: &[u8], k: usize) -> f64 {
    let mut bytes = [0; 8];
    bytes.copy_from_slice(&record[k * 8..k * 8 + 8]);
    f64::from_le_bytes(bytes)
}

/// A number as it is written; every NaN is 7ff8000000000000.
fn number_bytes(x: f64) -> [u8; 8] {
    let bits = if x.is_nan() {
        0x7ff8_0000_0000_0000
    } else {
        x.to_bits()
    };
    bits.to_le_bytes()
}
