//! Each entry once with an answer worked out by hand, and once refused.
use entries::*;

const MEAN: StateKind = StateKind::Mean;

fn shape(states: usize, size: usize) -> PackShape {
    PackShape { states, size }
}

/// Two bins of squared distance, the mean over the component sum, multiplied.
fn run() -> Run<'static> {
    Run {
        distance: Edges::Irregular(&[0.0, 25.0, 26.0]),
        kind: Kind::ComponentSumMean,
        operation: Operation::Multiply,
        shape: shape(2, 2),
        members: 1,
        teams: 1,
    }
}

/// Two points at squared distance 25.
fn points() -> Points<'static> {
    Points {
        positions: &[0.0, 3.0, 0.0, 4.0, 0.0, 0.0],
        values: &[1.0, 1.0, 2.0, 1.0, 3.0, 1.0],
        weights: &[1.0, 2.0],
        count: 2,
        stride: None,
    }
}

/// Two cells side by side in x.
fn block() -> Block<'static> {
    Block {
        components: [&[1.0, 1.0], &[2.0, 1.0], &[3.0, 1.0]],
        weights: &[1.0, 2.0],
        shape: [1, 1, 2],
        strides: [2, 2, 1],
        offsets: [0; 3],
    }
}

#[test]
fn lookups() {
    assert_eq!(regular_bin_index(0.0, 1.0, 4, 0.25), Ok(Some(1)));
    assert_eq!(regular_bin_index(0.0, 1.0, 4, 1.0), Ok(None));
    assert_eq!(regular_bin_index(0.0, 1.0, 257, 0.5), Err(7));
    assert_eq!(irregular_bin_index(&[0.0, 25.0, 26.0], 25.0), Ok(Some(1)));
    assert_eq!(irregular_bin_index(&[0.0, 1.0], f64::NAN), Ok(None));
    assert_eq!(irregular_bin_index(&[], 1.0), Err(12));
}

#[test]
fn segments() {
    assert_eq!(segment_idx_bounds(10, 0, 3), Ok((0, 4)));
    assert_eq!(segment_idx_bounds(10, 2, 3), Ok((7, 10)));
    assert_eq!(segment_idx_bounds(10, 3, 3), Err(26));
}

/// What a call gives and leaves of two, three and five words that were all 9.
fn at_each_length(
    call: impl Fn(&mut [u64]) -> Result<(), u32>,
) -> [(Result<(), u32>, [u64; 5]); 3] {
    [2, 3, 5].map(|n| {
        let mut out = [9; 5];
        (call(&mut out[..n]), out)
    })
}

#[test]
fn words() {
    let untouched = [9; 5];
    let done = |words| [(Err(24), untouched), (Ok(()), words), (Ok(()), words)];
    let refused = |number, words| {
        [
            (Err(number), untouched),
            (Err(number), words),
            (Err(number), words),
        ]
    };
    let regular = |n| at_each_length(|out| regular_bin_index_into(0.0, 1.0, n, 0.25, out));
    assert_eq!(regular(4), done([0, 1, 1, 9, 9]));
    assert_eq!(regular(257), refused(7, [7, 0, 0, 9, 9]));
    let irregular = |value| at_each_length(|out| irregular_bin_index_into(&[0.0, 1.0], value, out));
    assert_eq!(irregular(2.0), done([0, 0, 0, 9, 9]));
    let unordered = at_each_length(|out| irregular_bin_index_into(&[1.0, 0.0], 0.5, out));
    assert_eq!(unordered, refused(13, [13, 0, 0, 9, 9]));
    let segment = |index| at_each_length(|out| segment_idx_bounds_into(10, index, 3, out));
    assert_eq!(segment(2), done([0, 7, 10, 9, 9]));
    assert_eq!(segment(3), refused(26, [26, 0, 0, 9, 9]));
}

#[test]
fn packs() {
    let mut pack = [1.0, 2.0, 3.0];
    assert_eq!(reset_full_statepack(MEAN, shape(2, 2), &mut pack), Err(24));
    assert_eq!(reset_full_statepack(MEAN, shape(1, 2), &mut pack), Ok(()));
    assert_eq!(pack, [0.0, 0.0, 3.0]);
    let (one, kind) = (shape(1, 3), StateKind::Histogram(3));
    let merged = merge_full_statepacks(kind, one, one, &mut pack, &[1.0, 2.0, 4.0]);
    assert_eq!((merged, pack), (Ok(()), [1.0, 2.0, 7.0]));
    let other = merge_full_statepacks(kind, one, shape(3, 1), &mut pack, &[1.0; 3]);
    assert_eq!((other, pack), (Err(24), [1.0, 2.0, 7.0]));
    let lone =
        serial_consolidate_scratch_statepacks(StateKind::Histogram(1), 3, shape(1, 1), &mut pack);
    assert_eq!((lone, pack), (Ok(()), [10.0, 2.0, 7.0]));
}

#[test]
fn values() {
    let (pack, mut value) = ([6.0, 1.0, 2.0, 4.0], [0.5; 3]);
    let said = value_from_accum_state(MEAN, shape(2, 2), 1, &pack, &mut value);
    assert_eq!((said, value), (Ok(()), [0.25, 4.0, 0.5]));
    let said = value_from_accum_state(MEAN, shape(2, 2), 2, &pack, &mut value);
    assert_eq!((said, value), (Err(25), [0.25, 4.0, 0.5]));
}

#[test]
fn runs_over_points() {
    let mut pack = [0.0; 4];
    assert_eq!(points_auto(&points(), &run(), &mut pack), Ok(()));
    assert_eq!(pack, [0.0, 12.0, 0.0, 2.0]);
    let mut pack = [0.0; 4];
    assert_eq!(
        points_cross(&points(), &points(), &run(), &mut pack),
        Ok(())
    );
    assert_eq!(pack, [14.0 + 4.0 * 3.0, 24.0, 5.0, 4.0]);
    let teams = Run { teams: 2, ..run() };
    assert_eq!(
        points_cross(&points(), &points(), &teams, &mut pack),
        Err(23)
    );
    assert_eq!(points_auto(&points(), &run(), &mut pack[..3]), Err(24));
}

#[test]
fn runs_over_blocks() {
    let (mut pack, widths) = ([0.0; 4], [1.0, 1.0, 5.0]);
    assert_eq!(blocks_auto(&block(), widths, &run(), &mut pack), Ok(()));
    assert_eq!(pack, [0.0, 12.0, 0.0, 2.0]);
    let mut pack = [0.0; 4];
    assert_eq!(
        blocks_cross(&block(), &block(), widths, &run(), &mut pack),
        Ok(())
    );
    assert_eq!(pack, [14.0 + 4.0 * 3.0, 24.0, 5.0, 4.0]);
    let lone = Block {
        shape: [1; 3],
        ..block()
    };
    assert_eq!(blocks_auto(&lone, widths, &run(), &mut pack), Err(22));
    assert_eq!(
        blocks_cross(&lone, &block(), [0.0; 3], &run(), &mut pack),
        Err(20)
    );
}
