//! Finds librecords.a, which `scripts/staticlib records` writes.
use std::path::PathBuf;
use std::{env, process};

/// RUMBESHYQ_LIB names the folder; left out, it is the repository's own target/staticlib.
fn folder() -> PathBuf {
    let package = PathBuf::from(env::var_os("CARGO_MANIFEST_DIR").expect("run by cargo"));
    match env::var_os("RUMBESHYQ_LIB") {
        Some(folder) => package.join(folder),
        None => package.join("../target/staticlib"),
    }
}

fn main() {
    let folder = folder();
    let library = folder.join("librecords.a");
    println!("cargo:rerun-if-env-changed=RUMBESHYQ_LIB");
    println!("cargo:rerun-if-changed={}", library.display());
    if !library.is_file() {
        eprintln!(
            "{} is missing: run `scripts/staticlib records`, or set RUMBESHYQ_LIB to its folder",
            library.display()
        );
        process::exit(1);
    }
    println!("cargo:rustc-link-search=native={}", folder.display());
}
