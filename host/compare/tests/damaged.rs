//! Calls with something wrong: the number is the first in the stated order, and no byte is written.
use compare::check::{Call, Tally};
use compare::make::{FAMILIES, Stream, damaged};
use harness::family::Family;

const NUMBERS: [u32; 7] = [7, 27, 1, 12, 10, 13, 24];

#[test]
fn damaged_surveys() {
    let mut stream = Stream::new(5);
    let mut tally = Tally::default();
    for _ in 0..5_000 {
        for family in FAMILIES {
            let call = stream.call(family, 6, 8);
            let once = damaged(&mut stream.0, &call);
            tally.check(&once);
            tally.check(&damaged(&mut stream.0, &once));
        }
    }
    assert!(tally.of(0) > 5_000);
    for number in NUMBERS.into_iter().filter(|n| *n != 1) {
        assert!(tally.of(number) > 200, "{number}: {}", tally.of(number));
    }
    assert!(tally.of(1) > 50);
}

/// Every prefix of the points, of the edges and of the output.
#[test]
fn every_cut() {
    let mut stream = Stream::new(6);
    let mut tally = Tally::default();
    let call = stream.call(Family::Full, 5, 4);
    for keep in 0..=call.points.len() {
        let mut cut = call.clone();
        cut.points.truncate(keep);
        tally.check(&cut);
    }
    for keep in 0..=call.edges.len() {
        let edges = call.edges[..keep].to_vec();
        tally.check(&Call::new(call.points.clone(), edges));
    }
    for output in 0..=call.output + 40 {
        let mut cut = call.clone();
        cut.output = output;
        tally.check(&cut);
    }
    assert!(tally.of(0) >= 3 && tally.of(27) > 100 && tally.of(24) > 50);
}

/// Each bit of a small survey turned over.
#[test]
fn every_bit() {
    let mut tally = Tally::default();
    for seed in [7, 8] {
        let call = Stream::new(seed).call(Family::Eighths, 4, 3);
        for bit in 0..call.points.len() * 8 {
            let mut turned = call.clone();
            turned.points[bit / 8] ^= 1 << (bit % 8);
            tally.check(&turned);
        }
        for bit in 0..call.edges.len() * 8 {
            let mut turned = call.clone();
            turned.edges[bit / 8] ^= 1 << (bit % 8);
            tally.check(&turned);
        }
    }
    assert!(tally.of(0) > 500);
}

/// Every length of points with every length of edges, around each limit and each whole record.
#[test]
fn lengths() {
    let mut tally = Tally::default();
    let points = [
        0, 1, 8, 55, 56, 57, 111, 112, 57_343, 57_344, 57_345, 57_400, 60_000,
    ];
    let edges = [
        0, 1, 7, 8, 9, 15, 16, 17, 24, 2_055, 2_056, 2_057, 2_064, 3_000,
    ];
    let rising: Vec<u8> = (0..400).flat_map(|i| f64::from(i).to_le_bytes()).collect();
    for p in points {
        for e in edges {
            let call = Call::new(vec![0; p], rising[..e].to_vec());
            tally.check(&call);
            for output in [0, 15, 16, 17, 4_080, 4_096, 4_112] {
                let mut other = call.clone();
                other.output = output;
                tally.check(&other);
            }
        }
    }
    assert!([0, 7, 27, 1, 12, 24].iter().all(|n| tally.of(*n) > 0));
}

/// Each rule broken by itself, and each with each other one: the first in the order is given.
#[test]
fn pairs_of_faults() {
    let points = |fault: u32| match fault {
        7 => vec![0; 57_400],
        27 => vec![0; 57],
        1 => vec![],
        _ => vec![0; 112],
    };
    let edges = |fault: u32| {
        let list: &[f64] = match fault {
            12 => &[1.0],
            10 => &[0.0, f64::INFINITY],
            13 => &[1.0, 1.0],
            _ => &[0.0, 1.0],
        };
        let bytes: Vec<u8> = list.iter().flat_map(|x| x.to_le_bytes()).collect();
        match fault {
            7 => vec![0; 2_064],
            27 => bytes[1..].to_vec(),
            _ => bytes,
        }
    };
    let mut tally = Tally::default();
    for a in [0, 7, 27, 1] {
        for b in [0, 7, 27, 12, 10, 13] {
            let call = Call::new(points(a), edges(b));
            let mut short = call.clone();
            short.output += 1;
            tally.check(&call);
            tally.check(&short);
        }
    }
    assert!(NUMBERS.iter().all(|n| tally.of(*n) > 0));
}
