//! Times the four in turn, compares what they leave, and prints the least times and their ratios.
use crate::case::{Case, library};
use crate::original::original;
use crate::tight::{tight, unchecked};
use std::time::Instant;

type Way = fn(&Case, &mut [f64]);

const WAYS: [Way; 4] = [original, tight, unchecked, library];

/// Pairs that are timed together, so that a small call is not timed alone; and pairs of a repetition: a small
/// call is timed often, since the least of few times is not the least of a busy machine.
const TOGETHER: usize = 4_000;
const REPETITION: usize = 400_000;

pub struct Table<'a> {
    repetitions: usize,
    only: &'a str,
    pub different: usize,
}

impl<'a> Table<'a> {
    pub fn new(repetitions: usize, only: &'a str) -> Self {
        Table {
            repetitions,
            only,
            different: 0,
        }
    }

    /// A part's title and the names of its columns.
    pub fn head(&self, title: &str) {
        println!("\n{title}");
        println!(
            "| case | original | tight | unchecked | library | of original | of tight | of unchecked | ns a pair |"
        );
        println!("|---|---|---|---|---|---|---|---|---|");
    }

    /// One call, with the name under which it is printed; times in microseconds.
    pub fn row(&mut self, name: &str, case: &Case) {
        if !name.contains(self.only) {
            return;
        }
        let calls = (TOGETHER / case.pairs()).clamp(1, 50);
        let times = (REPETITION / (case.pairs() * calls)).clamp(1, 500);
        let mut least = [f64::INFINITY; 4];
        for _ in 0..self.repetitions * times {
            let mut left = Vec::new();
            for (way, least) in WAYS.iter().zip(&mut least) {
                let mut pack = vec![0.0; case.numbers()];
                let start = Instant::now();
                for _ in 0..calls {
                    way(case, &mut pack);
                }
                *least = least.min(start.elapsed().as_secs_f64() / calls as f64);
                left.push(bits(&pack));
            }
            if left.iter().any(|l| *l != left[0]) {
                self.different += 1;
                println!("{name}: outputs differ");
            }
        }
        let [original, tight, unchecked, library] = least.map(|t| t * 1e6);
        let [whole, tightest, bare] = [original, tight, unchecked].map(|t| library / t);
        let pair = library * 1e3 / case.pairs() as f64;
        println!(
            "| {name} | {original:.2} | {tight:.2} | {unchecked:.2} | {library:.2} | {whole:.2} | {tightest:.2} | {bare:.2} | {pair:.2} |"
        );
    }
}

fn bits(pack: &[f64]) -> Vec<u64> {
    pack.iter().map(|x| x.to_bits()).collect()
}
