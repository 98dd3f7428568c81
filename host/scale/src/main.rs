//! `scale [SEED [COUNT]]`: the comparison, from a seed; status 1 where a difference is not listed.
use scale::ours::answer;
use scale::work::compare;
use std::process::ExitCode;
use std::time::Instant;

fn numbers(arguments: &[String]) -> Result<(u64, usize), String> {
    let number = |at: usize, usual: u64| match arguments.get(at) {
        Some(text) => text.parse().map_err(|e| format!("{text}: {e}")),
        None => Ok(usual),
    };
    match arguments.len() {
        0..=2 => Ok((number(0, 1)?, number(1, 1_000_000)? as usize)),
        _ => Err("usage: scale [SEED [COUNT]]".to_string()),
    }
}

fn main() -> ExitCode {
    harness::ask::silence_panics();
    let arguments: Vec<String> = std::env::args().skip(1).collect();
    let (seed, count) = match numbers(&arguments) {
        Ok(numbers) => numbers,
        Err(text) => {
            eprintln!("{text}");
            return ExitCode::from(2);
        }
    };
    let start = Instant::now();
    let tally = compare(seed, count, answer);
    println!("seed {seed}, {:.0} s", start.elapsed().as_secs_f64());
    tally.print();
    match tally.unlisted() {
        0 => ExitCode::SUCCESS,
        _ => ExitCode::FAILURE,
    }
}
