//! Segments.
use crate::case::{Case, Segments};
use crate::rng::Rng;

fn case(indices: usize, index: usize, segments: usize) -> Case {
    Case::Segments(Segments {
        indices,
        index,
        segments,
    })
}

pub fn directed() -> Vec<Case> {
    let mut cases = Vec::new();
    for segments in 0..6 {
        for indices in [0, 1, 2, 5, 10, 11] {
            cases.extend((0..segments + 2).map(|index| case(indices, index, segments)));
        }
    }
    let top = usize::MAX;
    for indices in [0, 10, top - 1, top] {
        for segments in [0, 1, 2, 3, 1 << 32, top - 1, top] {
            for index in [0, 1, 2, segments / 2, segments.wrapping_sub(1), segments] {
                cases.push(case(indices, index, segments));
            }
        }
    }
    cases
}

/// Small numbers, or any at all.
pub fn random(rng: &mut Rng) -> Case {
    if rng.once_in(8) {
        let shift = rng.below(64);
        let segments = (rng.word() >> shift) as usize;
        let index = match rng.below(3) {
            0 => rng.below(1000),
            _ => rng.word() as usize % segments.max(1),
        };
        return case((rng.word() >> rng.below(64)) as usize, index, segments);
    }
    let segments = rng.below(40);
    case(rng.below(500), rng.below(segments + 2), segments)
}
