//! Why a call is refused.
use std::error::Error;
use std::fmt;

/// A rule that the call breaks, the first in the stated order.
#[derive(Clone, Copy, Debug, PartialEq, Eq)]
pub struct Refusal {
    /// The rule's number in the scope paper.
    pub number: u32,
    /// What it says, in one line.
    pub text: &'static str,
}

impl Refusal {
    /// The refusal with this number.
    pub fn of(number: u32) -> Refusal {
        let text = match number {
            1 => "there are no points",
            7 => "more than 1,024 points (57,344 bytes) or more than 257 edges (2,056 bytes)",
            10 => "an edge is not a finite number",
            12 => "there are fewer than two edges",
            13 => "the edges are not strictly increasing",
            24 => "the curve's length is not one record (16 bytes) for each bin",
            27 => "a length is not whole records (56 bytes for a point, 8 for an edge)",
            _ => "a rule that this host does not know",
        };
        Refusal { number, text }
    }
}

impl fmt::Display for Refusal {
    fn fmt(&self, f: &mut fmt::Formatter) -> fmt::Result {
        write!(f, "refused {}: {}", self.number, self.text)
    }
}

impl Error for Refusal {}
