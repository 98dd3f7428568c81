//! The published Rust, asked for what the entry answers.
use pairstat::SerialExecutor;
use pairstat_nostd_internal::{
    ComponentSumMean, IrregularBinEdges, PairOperation, StatePackViewMut, TwoPointUnstructured,
    UnstructuredPoints,
};
use std::num::NonZeroU32;

/// The rule's number for a text of the Rust.
fn number(text: &str) -> u32 {
    match text {
        "n_points must be positive" => 1,
        "A minimum of two bin edges are required" => 12,
        "Bin edges must be finite" => 10,
        "Bin edges must be in strictly increasing order" => 13,
        other => panic!("the Rust says: {other}"),
    }
}

/// The numbers of whole records, as they are.
fn numbers(bytes: &[u8]) -> Vec<f64> {
    let words = bytes.chunks_exact(8);
    words
        .map(|b| f64::from_le_bytes(b.try_into().expect("eight bytes")))
        .collect()
}

/// Column k of records of seven numbers.
fn column(records: &[f64], k: usize) -> Vec<f64> {
    records.iter().skip(k).step_by(7).copied().collect()
}

/// The curve's bytes, or the number for which the Rust refuses: points first, then edges.
pub fn curve(points: &[u8], edges: &[u8]) -> Result<Vec<u8>, u32> {
    let records = numbers(points);
    let gather = |from: usize| (from..from + 3).flat_map(|k| column(&records, k));
    let positions: Vec<f64> = gather(0).collect();
    let values: Vec<f64> = gather(3).collect();
    let weights = column(&records, 6);
    let count = weights.len();
    let points = UnstructuredPoints::new(&positions, &values, &weights, count, None);
    let points = points.map_err(number)?;
    let edges = numbers(edges);
    let distance = IrregularBinEdges::new(&edges).map_err(number)?;
    let bins = edges.len() - 1;
    let spec = TwoPointUnstructured::new(
        ComponentSumMean::new(),
        points,
        None,
        distance,
        PairOperation::ElementwiseMultiply,
    );
    let spec = spec.map_err(number)?;
    let mut pack = vec![0.0; bins * 2];
    let mut out = StatePackViewMut::from_slice(bins, 2, &mut pack);
    let one = NonZeroU32::MIN;
    let said = SerialExecutor.drive_reduce(&mut out, &spec, one, one);
    said.map_err(|e| number(&e.to_string()))?;
    Ok(written(&pack, bins))
}

/// Total and weight of each bin; number e of state s is at e times the states plus s.
fn written(pack: &[f64], bins: usize) -> Vec<u8> {
    let places = (0..bins).flat_map(|s| [s, bins + s]);
    let bits = places.map(|place| match pack[place] {
        x if x.is_nan() => 0x7ff8_0000_0000_0000,
        x => x.to_bits(),
    });
    bits.flat_map(u64::to_le_bytes).collect()
}
