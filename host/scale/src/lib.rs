//! Every operation of the library held against the published Rust.
pub mod judge;
pub mod ours;
pub mod tally;
pub mod work;
