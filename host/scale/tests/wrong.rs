//! A wrong answer is a difference, wherever it is wrong.
use harness::answer::Answer;
use harness::ask::{ask, silence_panics};
use harness::case::Case;
use harness::differences::Verdict;
use harness::make::{self, Extent};
use harness::rng::Rng;
use scale::judge::judge;
use scale::ours::{Said, answer};
use scale::tally::OPERATIONS;
use scale::work::compare;
use std::sync::atomic::{AtomicUsize, Ordering};

/// The slice with the lowest bit of one number changed; a NaN becomes 0.0, since all NaNs are one.
fn turned(slice: &[f64], at: usize) -> Answer {
    let mut slice = slice.to_vec();
    slice[at] = match slice[at] {
        x if x.is_nan() => 0.0,
        x => f64::from_bits(x.to_bits() ^ 1),
    };
    Answer::Slice(slice)
}

/// Answers that are not the one given.
fn others(case: &Case, right: &Answer) -> Vec<Answer> {
    let mut all = match right {
        Answer::Found(None) => vec![Answer::Found(Some(0))],
        Answer::Found(Some(i)) => vec![Answer::Found(None), Answer::Found(Some(i + 1))],
        Answer::Bounds(start, stop) => vec![
            Answer::Bounds(*start, stop.wrapping_add(1)),
            Answer::Bounds(start.wrapping_add(1), *stop),
        ],
        Answer::Slice(slice) => (0..slice.len()).map(|at| turned(slice, at)).collect(),
        _ => Vec::new(),
    };
    let numbers = (1..=26).map(Answer::Refused);
    all.extend(numbers.filter(|number| !number.same(right)));
    if let (Answer::Refused(_), Some(rest)) = (right, case.rest()) {
        all.push(Answer::Slice(rest.pack.slice.clone()));
    }
    all
}

fn check(case: &Case) {
    let (right, rust) = (answer(case), ask(case));
    assert!(judge(case, &right, &rust) != Verdict::Unlisted);
    for wrong in others(case, &right.expect("an answer")) {
        assert!(judge(case, &Ok(wrong), &rust) == Verdict::Unlisted);
    }
    assert!(judge(case, &Err("it wrote beside the slice"), &rust) == Verdict::Unlisted);
}

#[test]
fn every_other_answer_is_a_difference() {
    silence_panics();
    for case in make::directed(0, OPERATIONS, Extent::Few) {
        check(&case);
    }
    let mut rng = Rng::new(9);
    for operation in 0..OPERATIONS {
        for _ in 0..500 {
            check(&make::random(&mut rng, operation));
        }
    }
}

/// A library that is wrong once in all.
#[test]
fn one_wrong_answer_is_found() {
    silence_panics();
    for operation in 0..OPERATIONS {
        let calls = AtomicUsize::new(0);
        let library = |case: &Case| -> Said {
            let said = answer(case)?;
            let its = case.operation() == operation;
            let wrong = its && calls.fetch_add(1, Ordering::Relaxed) == 200;
            Ok(match wrong {
                true => others(case, &said).remove(0),
                false => said,
            })
        };
        assert_eq!(compare(7, 40, library).unlisted(), 1);
    }
}

#[test]
fn the_seed_tells_the_calls() {
    silence_panics();
    let lines = |seed| format!("{:?}", compare(seed, 50, answer));
    assert_eq!(lines(3), lines(3));
    assert_ne!(lines(3), lines(4));
}
