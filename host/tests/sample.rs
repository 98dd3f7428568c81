//! The sample survey: its files, that it is a whole-number survey, and that its curve is the book's.
#[path = "../examples/sample.rs"]
#[allow(dead_code)]
mod generator;

use rumbeshyq::{Point, curve, edges_of, points_of};
use std::fs;
use std::path::{Path, PathBuf};

fn folder() -> PathBuf {
    Path::new(env!("CARGO_MANIFEST_DIR")).join("../sample")
}

fn survey() -> (Vec<Point>, Vec<f64>) {
    let read = |name: &str| fs::read(folder().join(name)).unwrap();
    let points = points_of(&read("points.rec")).unwrap();
    let edges = edges_of(&read("edges.rec")).unwrap();
    (points, edges)
}

#[test]
fn the_generator_makes_the_files() {
    for (name, bytes) in generator::files() {
        assert!(fs::read(folder().join(name)).unwrap() == bytes, "{name}");
    }
}

/// A whole number of at most 2^24 in size.
fn whole(x: f64) -> i128 {
    assert!(x.fract() == 0.0 && x.abs() <= 16_777_216.0, "{x}");
    x as i128
}

/// A point in whole numbers: position, value, weight.
fn in_whole(p: &Point) -> ([i128; 3], [i128; 3], i128) {
    (p.position.map(whole), p.value.map(whole), whole(p.weight))
}

#[test]
fn it_is_a_whole_number_survey() {
    let (points, _) = survey();
    let whole: Vec<_> = points.iter().map(in_whole).collect();
    let values = whole.iter().flat_map(|(_, value, _)| value);
    let v = values.map(|v| v.abs()).max().unwrap().max(1);
    let w = whole.iter().map(|(_, _, w)| w.abs()).max().unwrap().max(1);
    let n = points.len() as i128;
    assert!(6 * v * v * w * w * (n * (n - 1) / 2) <= 1 << 53);
}

#[test]
fn its_curve_is_the_book() {
    let (points, edges) = survey();
    let made = curve(&points, &edges).unwrap();
    let mut book = vec![(0i128, 0i128); edges.len() - 1];
    let edges: Vec<i128> = edges.into_iter().map(whole).collect();
    let whole: Vec<_> = points.iter().map(in_whole).collect();
    for (i, (at, value, weight)) in whole.iter().enumerate() {
        for (other_at, other_value, other_weight) in &whole[i + 1..] {
            let square = |k: usize| (other_at[k] - at[k]).pow(2);
            let distance: i128 = (0..3).map(square).sum();
            let bin = edges.iter().filter(|edge| **edge <= distance).count();
            if bin == 0 || bin == edges.len() {
                continue;
            }
            let product: i128 = (0..3).map(|k| other_value[k] * value[k]).sum();
            book[bin - 1].0 += product * weight * other_weight;
            book[bin - 1].1 += weight * other_weight;
        }
    }
    for (bin, (total, weight)) in made.bins.iter().zip(book) {
        assert_eq!(bin.total.to_bits(), (total as f64).to_bits());
        assert_eq!(bin.weight.to_bits(), (weight as f64).to_bits());
    }
}
