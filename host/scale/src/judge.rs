//! How the library's answer stands to the Rust's.
use crate::ours::Said;
use harness::answer::Answer;
use harness::case::Case;
use harness::differences::{Verdict, verdict};
use harness::model::{model, refusal};

/// The library's answer must be document 01's, and the Rust's too but in the classes of docs/DIFFERENCES.md.
pub fn judge(case: &Case, ours: &Said, rust: &Answer) -> Verdict {
    let Ok(ours) = ours else {
        return Verdict::Unlisted;
    };
    if run_agrees(case, ours, rust) {
        return Verdict::Same;
    }
    let expected = model(case);
    match ours.same(&expected) {
        true => verdict(case, &expected, rust),
        false => Verdict::Unlisted,
    }
}

/// A run that is accepted and answered alike: the model, which is slow, is not asked. No class has such a run.
fn run_agrees(case: &Case, ours: &Answer, rust: &Answer) -> bool {
    case.rest().is_some()
        && matches!(ours, Answer::Slice(_))
        && refusal(case) == 0
        && ours.same(rust)
}
