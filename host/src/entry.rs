//! The entry of the verified library, and its two safe forms.
use crate::record::{BIN_BYTES, Curve, MAX_EDGES, MAX_POINTS, Point, edge_records, point_records};
use crate::refusal::Refusal;

#[link(name = "records", kind = "static")]
unsafe extern "C" {
    /// 0, or the number of the first rule that the call breaks.
    fn pairstat_curve(
        points: *const u8,
        points_len: usize,
        edges: *const u8,
        edges_len: usize,
        output: *mut u8,
        output_len: usize,
    ) -> u32;
}

/// The curve of a survey, as bytes: point records, edge records, and room for one curve record per bin.
///
/// All of `output` is replaced. On a refusal it holds what it held.
pub fn curve_bytes(points: &[u8], edges: &[u8], output: &mut [u8]) -> Result<(), Refusal> {
    // SAFETY: three live slices, each with its own length, the last one apart from the others. The entry reads
    // the first two, writes inside the last, keeps none of them and asks nothing else of its caller.
    let number = unsafe {
        pairstat_curve(
            points.as_ptr(),
            points.len(),
            edges.as_ptr(),
            edges.len(),
            output.as_mut_ptr(),
            output.len(),
        )
    };
    match number {
        0 => Ok(()),
        number => Err(Refusal::of(number)),
    }
}

/// The curve of a survey: every pair of points once, multiplied, in bins of squared distance.
///
/// Refused with 7, 1, 12, 10 or 13; 27 and 24 are for bytes.
pub fn curve(points: &[Point], edges: &[f64]) -> Result<Curve, Refusal> {
    // one over the limit is enough to be met by 7
    let points = &points[..points.len().min(MAX_POINTS + 1)];
    let edges = &edges[..edges.len().min(MAX_EDGES + 1)];
    let mut output = vec![0; edges.len().saturating_sub(1) * BIN_BYTES];
    curve_bytes(&point_records(points), &edge_records(edges), &mut output)?;
    Ok(Curve::of_bytes(&output, edges.to_vec()))
}
