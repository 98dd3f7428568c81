//! The Rust oracle against a plain model of document 01, and the fixed list made from both.
use harness::{ask, compare, list, show};
use std::path::Path;
use std::process::ExitCode;

const USAGE: &str = "usage: harness compare SEED COUNT | classes | list SEED DIR | show FILE";

fn run(arguments: &[&str]) -> Result<bool, String> {
    let number = |text: &str| text.parse::<u64>().map_err(|e| format!("{text}: {e}"));
    match arguments {
        ["compare", seed, count] => Ok(compare::compare(number(seed)?, number(count)? as usize)),
        ["classes"] => Ok(compare::classes()),
        ["list", seed, directory] => {
            let written = list::write(number(seed)?, Path::new(directory));
            written
                .map(|()| true)
                .map_err(|e| format!("{directory}: {e}"))
        }
        ["show", file] => {
            let words = list::read(Path::new(file)).map_err(|e| format!("{file}: {e}"))?;
            print!("{}", show::list(&words));
            Ok(true)
        }
        _ => Err(USAGE.to_string()),
    }
}

fn main() -> ExitCode {
    ask::silence_panics();
    let arguments: Vec<String> = std::env::args().skip(1).collect();
    let arguments: Vec<&str> = arguments.iter().map(String::as_str).collect();
    match run(&arguments) {
        Ok(true) => ExitCode::SUCCESS,
        Ok(false) => ExitCode::FAILURE,
        Err(text) => {
            eprintln!("{text}");
            ExitCode::from(2)
        }
    }
}
