//! What stops a command.
use rumbeshyq::Refusal;
use std::io::{self, Write};
use std::path::Path;
use std::process::ExitCode;

#[derive(Debug)]
pub enum Fault {
    /// The command line is not one that the tool knows.
    Usage(String),
    /// A rule is broken.
    Rule(u32, String),
    /// Something else is wrong with a file.
    File(String),
}

impl Fault {
    /// The fault with the file's name before it.
    pub fn in_file(self, file: &Path) -> Fault {
        let named = |text: String| format!("{}: {text}", file.display());
        match self {
            Fault::Rule(number, text) => Fault::Rule(number, named(text)),
            Fault::File(text) => Fault::File(named(text)),
            usage => usage,
        }
    }

    /// The fault in one line.
    pub fn line(&self) -> String {
        let line = match self {
            Fault::Usage(text) => format!("{text}; rumbeshyq --help tells more"),
            Fault::Rule(number, text) => format!("refused {number}: {text}"),
            Fault::File(text) => format!("refused: {text}"),
        };
        line.replace(['\n', '\r'], " ")
    }

    /// Says it on stderr and gives the exit status.
    pub fn tell(&self) -> ExitCode {
        // the status tells it too, should nobody listen
        let _ = writeln!(io::stderr(), "rumbeshyq: {}", self.line());
        match self {
            Fault::Usage(_) => ExitCode::from(2),
            _ => ExitCode::from(1),
        }
    }
}

impl From<Refusal> for Fault {
    fn from(refusal: Refusal) -> Fault {
        Fault::Rule(refusal.number, refusal.text.to_string())
    }
}
