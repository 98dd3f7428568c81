//! The rig's side of the two-point curve.
//!
//! The curve itself is worked out by a verified library, linked as `librecords.a`. This crate wraps its one
//! entry in safe Rust. Nothing must be checked beforehand: the entry answers every input, either with the
//! curve or with the number of the rule that the input breaks.
//!
//! ```
//! use rumbeshyq::{Point, curve};
//!
//! let points = [
//!     Point { position: [0.0, 0.0, 0.0], value: [1.0, 2.0, 3.0], weight: 1.0 },
//!     Point { position: [3.0, 4.0, 0.0], value: [1.0, 1.0, 1.0], weight: 2.0 },
//! ];
//! let curve = curve(&points, &[0.0, 25.0, 26.0]).unwrap();
//! assert_eq!((curve.bins[1].total, curve.bins[1].weight), (12.0, 2.0));
//! assert_eq!(curve.bins[1].mean(), 6.0);
//! ```
//!
//! Edges bound the *squared* distance of two points. Each pair of points is taken once; the order of the
//! points is the order in which pairs are summed, so it is kept as it is handed over.
mod entry;
mod record;
mod refusal;

pub use entry::{curve, curve_bytes};
pub use record::{
    BIN_BYTES, Bin, Curve, EDGE_BYTES, MAX_EDGES, MAX_POINTS, POINT_BYTES, Point, edge_records,
    edges_of, point_records, points_of,
};
pub use refusal::Refusal;
