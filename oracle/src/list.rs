//! The fixed list: directed cases, then random ones, with the answers to expect.
use crate::case::Case;
use crate::compare::both;
use crate::differences::Verdict;
use crate::make::{self, Extent};
use crate::read::{Reader, records};
use crate::rng::Rng;
use crate::show;
use crate::words::{inputs, record};
use std::io;
use std::path::Path;

/// A file of the list: its name, its operations as `NAMES` counts them, whether it holds every ordered pair of faults, and its size at most in bytes.
struct Part {
    file: &'static str,
    low: usize,
    high: usize,
    extent: Extent,
    bytes: usize,
}

const PARTS: [Part; 5] = [
    Part {
        file: "lookup.bin",
        low: 0,
        high: 2,
        extent: Extent::All,
        bytes: 160_000,
    },
    Part {
        file: "segments.bin",
        low: 2,
        high: 3,
        extent: Extent::All,
        bytes: 40_000,
    },
    Part {
        file: "pack.bin",
        low: 3,
        high: 7,
        extent: Extent::All,
        bytes: 560_000,
    },
    Part {
        file: "points.bin",
        low: 7,
        high: 9,
        extent: Extent::Few,
        bytes: 150_000,
    },
    Part {
        file: "blocks.bin",
        low: 9,
        high: 11,
        extent: Extent::Few,
        bytes: 150_000,
    },
];

/// The words of a random case's record at most.
const LONGEST: usize = 100;

/// Writes the files of the list into the directory.
pub fn write(seed: u64, directory: &Path) -> io::Result<()> {
    std::fs::create_dir_all(directory)?;
    for part in &PARTS {
        let (words, directed, random) = part_words(part, seed);
        check(&words);
        let bytes: Vec<u8> = words.iter().flat_map(|w| w.to_le_bytes()).collect();
        std::fs::write(directory.join(part.file), &bytes)?;
        let (file, len) = (part.file, bytes.len());
        println!("{file}: {directed} directed and {random} random cases, {len} bytes");
    }
    Ok(())
}

/// The directed cases, then random ones as long as they fit.
fn part_words(part: &Part, seed: u64) -> (Vec<u64>, usize, usize) {
    let mut words = Vec::new();
    let directed = make::directed(part.low, part.high, part.extent);
    for case in &directed {
        words.extend(answered(case));
    }
    let taken = words.len() * 8;
    assert!(taken < part.bytes, "{}: {taken} bytes", part.file);
    let mut rng = Rng::new(seed);
    for random in 0.. {
        let operation = part.low + random % (part.high - part.low);
        let one = short_random(&mut rng, operation);
        if (words.len() + one.len()) * 8 > part.bytes {
            return (words, directed.len(), random);
        }
        words.extend(one);
    }
    unreachable!()
}

/// The record of the next random case that is not too long for the list.
fn short_random(rng: &mut Rng, operation: usize) -> Vec<u64> {
    loop {
        let one = answered(&make::random(rng, operation));
        if one.len() <= LONGEST {
            return one;
        }
    }
}

/// The record of a case: the Rust's answer where both agree, else document 01's.
fn answered(case: &Case) -> Vec<u64> {
    let (expected, rust, found) = both(case);
    match found {
        Verdict::Same => record(case, &rust),
        Verdict::Listed(_) | Verdict::NotCompared => record(case, &expected),
        Verdict::Unlisted => panic!("an unlisted difference: {}", show::case(case)),
    }
}

/// Every record reads back to the same words.
fn check(words: &[u64]) {
    for (code, body) in records(words) {
        let mut reader = Reader(body);
        let again = inputs(&reader.case(code));
        assert_eq!(again, body[..body.len() - reader.0.len()]);
    }
}

/// The words of a file.
pub fn read(path: &Path) -> io::Result<Vec<u64>> {
    let bytes = std::fs::read(path)?;
    let word = |chunk: &[u8]| u64::from_le_bytes(chunk.try_into().expect("whole words"));
    Ok(bytes.chunks(8).map(word).collect())
}
