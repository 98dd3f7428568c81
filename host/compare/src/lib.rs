//! The entry held against the published Rust.
//!
//! What the Rust can't tell, since it takes no bytes, are the rules 7, 27 and 24: those are judged here from
//! the scope paper. Rules 1, 12, 10 and 13, and every bit of a curve, are the Rust's own answers.
pub mod check;
pub mod make;
pub mod oracle;
