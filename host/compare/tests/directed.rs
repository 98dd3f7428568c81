//! Surveys made for one place of the rules each.
use compare::check::{Call, Tally};
use harness::rng::SPECIAL;

fn bytes(numbers: &[f64]) -> Vec<u8> {
    numbers.iter().flat_map(|x| x.to_le_bytes()).collect()
}

const TWO: [f64; 14] = [
    0.0, 0.0, 0.0, 1.0, 2.0, 3.0, 1.0, 3.0, 4.0, 0.0, 1.0, 1.0, 1.0, 2.0,
];

#[test]
fn k10() {
    let mut tally = Tally::default();
    tally.check(&Call::new(bytes(&TWO), bytes(&[0.0, 25.0, 26.0])));
    assert_eq!(tally.of(0), 1);
}

/// Two points at squared distance 25, or 0; each edge a hair off it on either side.
#[test]
fn distances_at_an_edge() {
    let mut tally = Tally::default();
    let near = |x: f64| [x.next_down(), x, x.next_up()];
    for low in [near(0.0), near(25.0), [-1.0, -0.0, 24.0]].concat() {
        for middle in [near(25.0), near(30.0)].concat() {
            for high in [near(25.0), near(50.0)].concat() {
                let edges = bytes(&[low, middle, high]);
                tally.check(&Call::new(bytes(&TWO), edges.clone()));
                let same = [&TWO[..7], &TWO[..7]].concat();
                tally.check(&Call::new(bytes(&same), edges));
            }
        }
    }
    assert!(tally.of(0) > 200 && tally.of(13) > 100);
}

/// Each special number at each of a record's seven places, in the first record and in the second.
#[test]
fn special_numbers_in_points() {
    let mut tally = Tally::default();
    for edges in [
        &[0.0, 25.0, 26.0][..],
        &[-0.0, 1e308],
        &[-1e308, 0.0, 1e300],
    ] {
        for place in 0..14 {
            for special in SPECIAL {
                let mut points = [TWO, TWO].concat();
                points[place] = special;
                tally.check(&Call::new(bytes(&points), bytes(edges)));
            }
        }
    }
    assert_eq!(tally.of(0), 3 * 14 * 14);
}

#[test]
fn special_numbers_in_edges() {
    let mut tally = Tally::default();
    for place in 0..3 {
        for special in SPECIAL {
            let mut edges = [0.0, 25.0, 26.0];
            edges[place] = special;
            tally.check(&Call::new(bytes(&TWO), bytes(&edges)));
            tally.check(&Call::new(bytes(&TWO), bytes(&edges[..2])));
            tally.check(&Call::new(bytes(&TWO), bytes(&edges[..1])));
        }
    }
    assert!(tally.of(10) == 20 && tally.of(12) == 42 && tally.of(13) > 10);
}

/// Squares that round apart in another order: a large one and two that vanish one by one.
#[test]
fn the_order_of_the_squares() {
    let mut tally = Tally::default();
    let thin = f64::from_bits(0x3e44_0000_0000_0000);
    let edges = bytes(&[0.0, 1.0, 1f64.next_up(), 1f64.next_up().next_up(), 2.0]);
    for lengths in [[1.0, thin, thin], [thin, 1.0, thin], [thin, thin, 1.0]] {
        let mut points = TWO;
        points[7..10].copy_from_slice(&lengths);
        tally.check(&Call::new(bytes(&points), edges.clone()));
    }
    assert_eq!(tally.of(0), 3);
}

/// Component sums that round apart in another order.
#[test]
fn the_order_of_the_components() {
    let mut tally = Tally::default();
    let thin = f64::from_bits(0x3ca0_0000_0000_0000);
    for values in [[1.0, thin, thin], [thin, 1.0, thin], [thin, thin, 1.0]] {
        let mut points = TWO;
        points[3..6].copy_from_slice(&values);
        tally.check(&Call::new(bytes(&points), bytes(&[0.0, 26.0])));
    }
    assert_eq!(tally.of(0), 3);
}
