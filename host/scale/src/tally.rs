//! Counts of what was compared.
use crate::judge::judge;
use crate::ours::Said;
use harness::answer::Answer;
use harness::case::{Case, NAMES};
use harness::differences::{CLASSES, Verdict};
use harness::show;
use std::collections::BTreeSet;

/// The operations of the library, which are the harness's first ones, and lists of runs.
pub const OPERATIONS: usize = 11;
pub const LISTS: usize = OPERATIONS;
const ROWS: usize = OPERATIONS + 1;

/// How many differences are told with their inputs.
const TOLD: usize = 5;

/// Counts of one row.
#[derive(Clone, Debug, Default)]
struct Count {
    same: usize,
    listed: [usize; CLASSES],
    not_compared: usize,
    unlisted: usize,
    accepted: usize,
    numbers: BTreeSet<u64>,
}

#[derive(Debug, Default)]
pub struct Tally {
    rows: [Count; ROWS],
    told: Vec<String>,
}

impl Count {
    fn compared(&self) -> usize {
        self.same + self.listed.iter().sum::<usize>() + self.unlisted
    }

    fn add(&mut self, other: &Count) {
        self.same += other.same;
        for (class, n) in self.listed.iter_mut().zip(other.listed) {
            *class += n;
        }
        self.not_compared += other.not_compared;
        self.unlisted += other.unlisted;
        self.accepted += other.accepted;
        self.numbers.extend(&other.numbers);
    }

    fn print(&self, name: &str) {
        let classes = (1..).zip(self.listed).filter(|(_, n)| *n > 0);
        let classes: Vec<String> = classes.map(|(class, n)| format!("{class}:{n}")).collect();
        let numbers: Vec<String> = self.numbers.iter().map(u64::to_string).collect();
        let (compared, same, none) = (self.compared(), self.same, self.not_compared);
        println!(
            "{name:<16} {compared:>9} {same:>9} {:>8} {none:>12} {:>9}  {} | {}",
            self.unlisted,
            self.accepted,
            classes.join(" "),
            numbers.join(" ")
        );
    }
}

impl Tally {
    /// Judges and counts a call under the row.
    pub fn take(&mut self, row: usize, case: &Case, ours: &Said, rust: &Answer) -> Verdict {
        let found = judge(case, ours, rust);
        let count = &mut self.rows[row];
        match ours {
            Ok(Answer::Refused(number)) => {
                count.numbers.insert(*number);
            }
            _ => count.accepted += 1,
        }
        match found {
            Verdict::Same => count.same += 1,
            Verdict::NotCompared => count.not_compared += 1,
            Verdict::Listed(class) => count.listed[class - 1] += 1,
            Verdict::Unlisted => {
                count.unlisted += 1;
                self.tell(case, ours, rust);
            }
        }
        found
    }

    fn tell(&mut self, case: &Case, ours: &Said, rust: &Answer) {
        if self.told.len() < TOLD {
            let said = match ours {
                Ok(answer) => show::answer(answer),
                Err(text) => text.to_string(),
            };
            let (case, rust) = (show::case(case), show::answer(rust));
            self.told.push(format!(
                "unlisted difference: {case}\n  the library: {said}\n  the Rust:    {rust}"
            ));
        }
    }

    pub fn add(&mut self, other: &Tally) {
        for (row, more) in self.rows.iter_mut().zip(&other.rows) {
            row.add(more);
        }
        self.told.extend(other.told.iter().cloned());
    }

    pub fn unlisted(&self) -> usize {
        self.rows.iter().map(|count| count.unlisted).sum()
    }

    /// The differences, the table, and a last line.
    pub fn print(&self) {
        for text in self.told.iter().take(TOLD) {
            println!("{text}");
        }
        println!(
            "operation         compared      same unlisted not compared  accepted  listed by class | numbers met"
        );
        let names = NAMES[..OPERATIONS].iter().chain(&["lists of runs"]);
        for (name, count) in names.zip(&self.rows) {
            count.print(name);
        }
        let compared: usize = self.rows.iter().map(Count::compared).sum();
        println!(
            "{compared} calls compared, {} unlisted differences",
            self.unlisted()
        );
    }
}
