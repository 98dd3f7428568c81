//! Surveys that are accepted: every bit is the Rust's.
use compare::check::{Call, Tally};
use compare::make::{FAMILIES, Stream};
use harness::family::Family;

#[test]
fn short_surveys() {
    let mut stream = Stream::new(1);
    let mut tally = Tally::default();
    for _ in 0..10_000 {
        for family in FAMILIES {
            let call = stream.call(family, 12, 6);
            tally.check(&call);
        }
    }
    assert_eq!(tally.of(0), 60_000);
}

#[test]
fn surveys_of_every_length() {
    let mut stream = Stream::new(2);
    let mut tally = Tally::default();
    for family in FAMILIES {
        for count in 1..=120 {
            let points = stream.points(family, count);
            let bins = stream.0.within(1, 256);
            tally.check(&Call::new(points, stream.edges(family, bins)));
        }
    }
    assert_eq!(tally.of(0), 720);
}

#[test]
fn long_surveys() {
    let mut stream = Stream::new(3);
    let mut tally = Tally::default();
    for family in FAMILIES {
        for count in [255, 256, 257, 511, 1000, 1023, 1024] {
            for bins in [1, 24, 255, 256] {
                let points = stream.points(family, count);
                tally.check(&Call::new(points, stream.edges(family, bins)));
            }
        }
    }
    assert_eq!(tally.of(0), 168);
}

/// All pairs of some bin are summed in the points' order: another order would show.
#[test]
fn the_order_of_the_points_shows() {
    let mut stream = Stream::new(4);
    let mut tally = Tally::default();
    for _ in 0..200 {
        let points = stream.points(Family::Wide, 60);
        let edges = [-1.0, f64::MAX].map(f64::to_le_bytes).concat();
        let call = Call::new(points.clone(), edges.clone());
        tally.check(&call);
        let turned: Vec<&[u8]> = points.chunks(56).rev().collect();
        tally.check(&Call::new(turned.concat(), edges));
    }
    assert_eq!(tally.of(0), 400);
}
