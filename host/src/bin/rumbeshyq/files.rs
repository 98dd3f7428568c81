//! Reading and writing files: whole, or not at all.
use crate::fault::Fault;
use std::fs::{self, File};
use std::io::{self, Read, Write};
use std::path::{Path, PathBuf};

/// Longest sheet that is read; 1,024 readings need far less.
const MOST_TEXT: usize = 16 << 20;

/// A sheet's bytes.
pub fn read_text(path: &Path) -> Result<Vec<u8>, Fault> {
    let bytes = read_most(path, MOST_TEXT)
        .map_err(|e| Fault::File(format!("{}: can't be read: {e}", path.display())))?;
    if bytes.len() > MOST_TEXT {
        let text = format!("{}: more than 16 MiB, not a survey", path.display());
        return Err(Fault::Rule(7, text));
    }
    Ok(bytes)
}

/// A record file's bytes. One that is too long keeps a byte over the limit, so that it is met by 7.
pub fn read_records(path: &Path, limit: usize) -> Result<Vec<u8>, Fault> {
    read_most(path, limit)
        .map_err(|e| Fault::Rule(28, format!("{}: can't be read: {e}", path.display())))
}

fn read_most(path: &Path, limit: usize) -> io::Result<Vec<u8>> {
    let mut bytes = Vec::new();
    let file = File::open(path)?;
    file.take(limit as u64 + 1).read_to_end(&mut bytes)?;
    Ok(bytes)
}

/// Writes a file under another name beside it, then renames. An input is never replaced.
pub fn write(path: &Path, inputs: &[PathBuf], bytes: &[u8]) -> Result<(), Fault> {
    let fault = |text: String| Fault::File(format!("{}: {text}", path.display()));
    let target = fs::canonicalize(path).unwrap_or_else(|_| path.to_path_buf());
    if target.exists() && !target.is_file() {
        return Err(fault("is not a plain file".to_string()));
    }
    for input in inputs {
        if fs::canonicalize(input).is_ok_and(|input| input == target) {
            return Err(fault("is an input of this command".to_string()));
        }
    }
    replace(&target, bytes).map_err(|e| fault(format!("can't be written: {e}")))
}

fn replace(target: &Path, bytes: &[u8]) -> io::Result<()> {
    let name = target.file_name().ok_or(io::ErrorKind::InvalidInput)?;
    let mut other = std::ffi::OsString::from(".");
    other.push(name);
    other.push(format!(".{}.part", std::process::id()));
    let part = target.with_file_name(other);
    let written = fill(&part, bytes).and_then(|()| fs::rename(&part, target));
    if written.is_err() {
        // what is left of a failed write; the first error is the one to tell
        let _ = fs::remove_file(&part);
    }
    written
}

fn fill(part: &Path, bytes: &[u8]) -> io::Result<()> {
    let mut file = File::create(part)?;
    file.write_all(bytes)?;
    file.sync_all()
}
