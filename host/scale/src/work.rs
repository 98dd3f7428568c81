//! The calls, cut into jobs that threads take one after another.
use crate::ours::Said;
use crate::tally::{LISTS, OPERATIONS, Tally};
use harness::answer::Answer;
use harness::ask::ask;
use harness::case::Case;
use harness::differences::Verdict;
use harness::make::{self, Extent, lists};
use harness::rng::Rng;
use std::sync::atomic::{AtomicUsize, Ordering};
use std::thread;

/// Calls of one job.
const JOB: usize = 2_000;

/// Calls to make: a share of the directed ones, or random ones of a row from a seed of their own.
enum Job<'a> {
    Directed(&'a [Case]),
    Random { row: usize, count: usize, seed: u64 },
}

fn jobs(directed: &[Case], seed: u64, count: usize) -> Vec<Job<'_>> {
    let mut jobs: Vec<Job> = directed.chunks(JOB).map(Job::Directed).collect();
    let mut rng = Rng::new(seed);
    for start in (0..count).step_by(JOB) {
        let count = JOB.min(count - start);
        jobs.extend((0..=LISTS).map(|row| Job::Random {
            row,
            count,
            seed: rng.word(),
        }));
    }
    jobs
}

/// The library under test: its answer to a case.
pub trait Library: Fn(&Case) -> Said + Sync {}
impl<T: Fn(&Case) -> Said + Sync> Library for T {}

/// All directed calls, and random ones until `count` of each row are compared. The threads' number changes nothing.
pub fn compare(seed: u64, count: usize, library: impl Library) -> Tally {
    let directed = make::directed(0, OPERATIONS, Extent::All);
    let jobs = jobs(&directed, seed, count);
    let next = AtomicUsize::new(0);
    let work = || {
        let mut tally = Tally::default();
        while let Some(job) = jobs.get(next.fetch_add(1, Ordering::Relaxed)) {
            done(job, &library, &mut tally);
        }
        tally
    };
    let threads = thread::available_parallelism().map_or(1, usize::from);
    let mut whole = Tally::default();
    thread::scope(|scope| {
        let workers: Vec<_> = (0..threads).map(|_| scope.spawn(work)).collect();
        for worker in workers {
            whole.add(&worker.join().expect("a thread that ends"));
        }
    });
    whole
}

fn done(job: &Job, library: &impl Library, tally: &mut Tally) {
    match job {
        Job::Directed(cases) => {
            for case in *cases {
                call(tally, library, case);
            }
        }
        Job::Random { row, count, seed } => {
            let mut rng = Rng::new(*seed);
            let mut compared = 0;
            while compared < *count {
                compared += match *row {
                    LISTS => list(tally, library, &mut rng),
                    operation => call(tally, library, &random(&mut rng, operation)),
                };
            }
        }
    }
}

/// Small cases, in which odd numbers are frequent, and large ones.
fn random(rng: &mut Rng, operation: usize) -> Case {
    match rng.once_in(2) {
        true => make::random(rng, operation),
        false => make::wide(rng, operation),
    }
}

/// Puts a case to both; 1 if the answers are compared.
fn call(tally: &mut Tally, library: &impl Library, case: &Case) -> usize {
    let found = tally.take(case.operation(), case, &library(case), &ask(case));
    (found != Verdict::NotCompared) as usize
}

/// Puts the runs of a list to both, one after another; each side has a slice, which holds what its run before left.
/// Gives how many are compared.
fn list(tally: &mut Tally, library: &impl Library, rng: &mut Rng) -> usize {
    let (runs, slice) = lists::runs(rng);
    let (mut our_slice, mut rust_slice) = (slice.clone(), slice);
    let mut compared = 0;
    for mut case in runs {
        let ours = into(&mut case, &our_slice, library);
        let rust = into(&mut case, &rust_slice, ask);
        let found = tally.take(LISTS, &case, &ours, &rust);
        compared += (found != Verdict::NotCompared) as usize;
        kept(&mut our_slice, &ours);
        match (found, rust) {
            (Verdict::Same, Answer::Slice(after)) => rust_slice = after,
            (Verdict::Same, _) => {}
            _ => rust_slice.clone_from(&our_slice),
        }
    }
    compared
}

/// The answer to the run when the slice lent is this one.
fn into<T>(case: &mut Case, slice: &[f64], put: impl Fn(&Case) -> T) -> T {
    let lent = &mut case.rest_mut().expect("a run").pack.slice;
    lent.clear();
    lent.extend(slice);
    put(case)
}

fn kept(slice: &mut Vec<f64>, said: &Said) {
    if let Ok(Answer::Slice(after)) = said {
        slice.clone_from(after);
    }
}
