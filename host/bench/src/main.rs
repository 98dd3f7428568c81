//! The runs of the verified library timed against the published Rust and the tightest safe Rust.
mod case;
mod inputs;
mod limits;
mod original;
mod table;
mod tight;

use std::process::ExitCode;

fn main() -> ExitCode {
    let words: Vec<String> = std::env::args().skip(1).collect();
    let repetitions = words.first().map_or(7, |n| n.parse().expect("a number"));
    let only = words.get(1).map_or("", String::as_str);
    let mut table = table::Table::new(repetitions, only);
    inputs::large(&mut table);
    inputs::directed(&mut table);
    inputs::growth(&mut table);
    inputs::small_stack();
    limits::print();
    if table.different == 0 {
        println!("all outputs the same bit for bit");
        return ExitCode::SUCCESS;
    }
    println!("{} outputs differ", table.different);
    ExitCode::FAILURE
}
