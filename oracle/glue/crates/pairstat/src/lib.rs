#![allow(dead_code)]
//! Glue: the modules of the published sources that a run needs.
mod error;
mod parallel_serial;

pub use error::Error;
pub use parallel_serial::SerialExecutor;
