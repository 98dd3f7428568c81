//! The Rust against the model, case by case.
use crate::answer::Answer;
use crate::ask::ask;
use crate::case::{Case, NAMES};
use crate::differences::{CLASSES, Verdict, verdict};
use crate::make::{self, Extent};
use crate::model::{model, refusal};
use crate::rng::Rng;
use crate::show;
use std::collections::BTreeSet;

/// The highest number that an operation of the harness meets.
const HIGHEST: u64 = 26;

/// Counts over the cases of one operation.
#[derive(Default)]
struct Count {
    same: usize,
    listed: usize,
    not_compared: usize,
    accepted: usize,
    numbers: BTreeSet<u64>,
}

/// Counts over all cases.
pub struct Tally {
    operations: Vec<Count>,
    classes: [usize; CLASSES],
    unlisted: usize,
}

/// Both answers to a case, and how they stand to each other.
pub fn both(case: &Case) -> (Answer, Answer, Verdict) {
    let expected = model(case);
    let rust = ask(case);
    let found = verdict(case, &expected, &rust);
    (expected, rust, found)
}

impl Tally {
    fn new() -> Self {
        Tally {
            operations: NAMES.iter().map(|_| Count::default()).collect(),
            classes: [0; CLASSES],
            unlisted: 0,
        }
    }

    fn take(&mut self, case: &Case) {
        let (expected, rust, found) = both(case);
        let count = &mut self.operations[case.operation()];
        match &expected {
            Answer::Refused(number) => {
                count.numbers.insert(*number);
            }
            _ => count.accepted += 1,
        }
        match found {
            Verdict::Same => count.same += 1,
            Verdict::NotCompared => count.not_compared += 1,
            Verdict::Listed(class) => {
                count.listed += 1;
                self.classes[class - 1] += 1;
            }
            Verdict::Unlisted => {
                self.unlisted += 1;
                println!("unlisted difference: {}", show::case(case));
                println!("  document 01: {}", show::answer(&expected));
                println!("  the Rust:    {}", show::answer(&rust));
            }
        }
    }

    fn print(&self) {
        println!("operation          same  listed  not compared  accepted  numbers met");
        for (name, count) in NAMES.iter().zip(&self.operations) {
            let numbers: Vec<String> = count.numbers.iter().map(u64::to_string).collect();
            let (same, listed) = (count.same, count.listed);
            let (none, accepted) = (count.not_compared, count.accepted);
            let numbers = numbers.join(" ");
            println!("{name:<16} {same:>6} {listed:>7} {none:>13} {accepted:>9}  {numbers}");
        }
        for (i, n) in self.classes.iter().enumerate() {
            println!("class {:>2}: {n}", i + 1);
        }
        let met: BTreeSet<u64> = self
            .operations
            .iter()
            .flat_map(|c| c.numbers.clone())
            .collect();
        let missing: Vec<u64> = (1..=HIGHEST).filter(|n| !met.contains(n)).collect();
        println!("numbers never met: {missing:?}");
        let compared: usize = self.operations.iter().map(|c| c.same + c.listed).sum();
        let total = compared + self.unlisted;
        println!("{total} compared, {} unlisted differences", self.unlisted);
    }
}

/// Holds the answers written down by hand against the model; true if each is the model's.
fn marked() -> bool {
    let all = make::marked::all();
    let holds = |(case, answer): &&(Case, Option<Answer>)| match answer {
        Some(answer) => model(case).same(answer),
        None => refusal(case) == 0,
    };
    let held = all.iter().filter(holds).count();
    println!("{held} of {} answers written by hand hold", all.len());
    held == all.len()
}

/// All directed cases and `count` random ones of each operation. True if nothing is unlisted.
pub fn compare(seed: u64, count: usize) -> bool {
    let mut tally = Tally::new();
    for case in make::directed(0, NAMES.len(), Extent::All) {
        tally.take(&case);
    }
    let mut rng = Rng::new(seed);
    for operation in 0..NAMES.len() {
        for _ in 0..count {
            tally.take(&make::random(&mut rng, operation));
        }
    }
    let right = marked();
    tally.print();
    right && tally.unlisted == 0
}

/// Puts the smallest inputs of each class to the Rust and prints both answers. True if each is of its class.
pub fn classes() -> bool {
    let mut right = true;
    for (class, case) in make::classes::smallest() {
        let (expected, rust, found) = both(&case);
        println!("{class}. {}", show::case(&case));
        println!("    document 01: {}", show::answer(&expected));
        println!("    the Rust:    {}", show::answer(&rust));
        if found != Verdict::Listed(class) {
            println!("    not of class {class}");
            right = false;
        }
    }
    right
}
