//! The command line.
use crate::fault::Fault;
use std::path::PathBuf;

/// What stands after a command's name.
pub struct Arguments {
    pub files: Vec<PathBuf>,
    pub output: PathBuf,
    switches: Vec<String>,
    options: Vec<(String, String)>,
}

/// The words after the program's name; each must be text.
pub fn words() -> Result<Vec<String>, Fault> {
    std::env::args_os()
        .skip(1)
        .map(|word| {
            word.into_string()
                .map_err(|word| Fault::Usage(format!("{word:?} is not UTF-8 text")))
        })
        .collect()
}

impl Arguments {
    /// So many files, `-o FILE`, and the switches and options that the command knows.
    pub fn read(
        words: &[String],
        files: usize,
        switches: &[&str],
        options: &[&str],
    ) -> Result<Arguments, Fault> {
        let mut given = Arguments {
            files: Vec::new(),
            output: PathBuf::new(),
            switches: Vec::new(),
            options: Vec::new(),
        };
        let mut rest = words.iter();
        while let Some(word) = rest.next() {
            let known = options.contains(&word.as_str());
            if word == "-o" || known {
                let after = rest.next().ok_or_else(|| missing(word))?;
                given.options.push((word.clone(), after.clone()));
            } else if switches.contains(&word.as_str()) {
                given.switches.push(word.clone());
            } else if word.starts_with('-') {
                return Err(Fault::Usage(format!("unknown option '{word}'")));
            } else {
                given.files.push(PathBuf::from(word));
            }
        }
        given.output = PathBuf::from(given.option("-o").ok_or_else(no_output)?);
        given.counted(files)
    }

    fn counted(self, files: usize) -> Result<Arguments, Fault> {
        if let Some(twice) = self.repeated() {
            return Err(Fault::Usage(format!("'{twice}' stands twice")));
        }
        if self.files.len() != files {
            let found = self.files.len();
            let text = format!("{files} input file(s) are wanted, not {found}");
            return Err(Fault::Usage(text));
        }
        Ok(self)
    }

    fn repeated(&self) -> Option<&str> {
        let names = || self.options.iter().map(|(name, _)| name.as_str());
        names().find(|name| names().filter(|other| other == name).count() > 1)
    }

    pub fn has(&self, switch: &str) -> bool {
        self.switches.iter().any(|s| s == switch)
    }

    pub fn option(&self, name: &str) -> Option<&str> {
        let mut found = self.options.iter().filter(|(n, _)| n == name);
        found.next().map(|(_, text)| text.as_str())
    }
}

fn missing(word: &str) -> Fault {
    Fault::Usage(format!("nothing stands after '{word}'"))
}

fn no_output() -> Fault {
    Fault::Usage("the output is missing: -o FILE".to_string())
}
