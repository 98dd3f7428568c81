//! The Rust oracle, a plain model of document 01, and cases to put to both.
pub mod answer;
pub mod ask;
pub mod case;
pub mod compare;
pub mod differences;
pub mod family;
pub mod list;
pub mod make;
pub mod model;
pub mod read;
pub mod rng;
pub mod show;
pub mod words;
