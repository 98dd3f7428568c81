//! Document 01's number for each text with which the Rust refuses.

const TEXTS: [(&str, u64); 25] = [
    ("n_points must be positive", 1),
    ("n_points exceeds spatial_dim_stride", 2),
    ("values and positions have different lengths", 3),
    ("positions.len() isn't divisible by spatial_dim_stride", 4),
    ("for now, we require 3 spatial dimensions", 5),
    ("weights.len() must be n_points", 6),
    ("Number of bins must be greater than zero", 8),
    ("Maximum value must be greater than minimum value", 9),
    ("Min and max values must be finite", 10),
    ("Bin edges must be finite", 10),
    ("received pathological values", 11),
    ("A minimum of two bin edges are required", 12),
    ("Bin edges must be in strictly increasing order", 13),
    ("shape must not hold 0", 14),
    ("stride must be 1 along the trailing axis", 15),
    (
        "strides[0] must not be exceeded by total length of ax 1",
        16,
    ),
    (
        "strides[1] must not be exceeded by total length of ax 2",
        17,
    ),
    (
        "length of weights is inconsistent with strides and shape",
        18,
    ),
    (
        "the length of each value component must be the same as weights",
        19,
    ),
    ("each cell width must be positive", 20),
    ("reverse the argument order OR try to use new_auto_iter", 21),
    ("the provided blocks have no pairs", 22),
    ("team_param.n_members_per_team has a value of", 23),
    ("team_param.n_teams has a value of", 23),
    ("Binned statepack has", 24),
];

/// The number of the text's rule; a text that is not listed gets one that no rule has.
pub fn of(text: &str) -> u64 {
    let known = TEXTS.iter().find(|(start, _)| text.starts_with(start));
    known.map_or(u64::MAX, |(_, number)| *number)
}
