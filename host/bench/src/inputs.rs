//! The inputs: points in the unit cube, blocks of cells; edges that keep nearly all of the pairs, or few.
use crate::case::{Case, Sets, library};
use crate::table::Table;
use entries::{Block, Edges, Kind, Points};
use harness::rng::Rng;

/// Numbers of a set, of points or of cells.
struct Numbers {
    positions: Vec<f64>,
    values: Vec<f64>,
    weights: Vec<f64>,
}

impl Numbers {
    fn new(count: usize, seed: u64) -> Self {
        let mut rng = Rng::new(seed);
        Numbers {
            positions: (0..3 * count).map(|_| rng.unit()).collect(),
            values: (0..3 * count).map(|_| rng.unit() - 0.5).collect(),
            weights: (0..count).map(|_| rng.unit()).collect(),
        }
    }

    /// Whole numbers: positions from 0 to 15, values from -8 to 8, weights from 1 to 4.
    fn whole(count: usize, seed: u64) -> Self {
        let mut rng = Rng::new(seed);
        let mut below = |n: f64| (rng.unit() * n).floor();
        Numbers {
            positions: (0..3 * count).map(|_| below(16.0)).collect(),
            values: (0..3 * count).map(|_| below(17.0) - 8.0).collect(),
            weights: (0..count).map(|_| below(4.0) + 1.0).collect(),
        }
    }

    fn points(&self, count: usize) -> Points<'_> {
        Points {
            positions: &self.positions[..3 * count],
            values: &self.values[..3 * count],
            weights: &self.weights[..count],
            count,
            stride: None,
        }
    }

    fn block(&self, n: usize, offsets: [i64; 3]) -> Block<'_> {
        let cells = n * n * n;
        Block {
            components: [0, 1, 2].map(|k| &self.values[k * cells..(k + 1) * cells]),
            weights: &self.weights[..cells],
            shape: [n; 3],
            strides: [n * n, n, 1],
            offsets,
        }
    }
}

/// Edges of squared distances whose distances are evenly spaced up to `reach`.
fn squares(n: usize, reach: f64) -> Vec<f64> {
    let edge = |k| reach * k as f64 / n as f64;
    (0..=n).map(|k| edge(k) * edge(k)).collect()
}

/// Value edges around 0, denser near it.
fn values(n: usize) -> Vec<f64> {
    let edge = |k| 2.0 * k as f64 / n as f64 - 1.0;
    (0..=n)
        .map(|k| 0.4 * edge(k) * (0.5 + edge(k).abs()))
        .collect()
}

/// The distance within which about 90% of the pairs of the unit cube lie, and about 8%.
const REACHES: [(&str, f64); 2] = [("90%", 1.0), ("8%", 0.3)];

fn even(max: f64, n: usize) -> Edges<'static> {
    Edges::Regular { min: 0.0, max, n }
}

const EVEN_VALUES: Edges = Edges::Regular {
    min: -0.6,
    max: 0.6,
    n: 16,
};

pub fn large(table: &mut Table) {
    let numbers = Numbers::new(4096, 1);
    let others = Numbers::new(3000, 2);
    let auto = Sets::Points(numbers.points(4096), None);
    let cross = Sets::Points(others.points(2048), Some(numbers.points(3000)));
    table.head("4,096 points auto; cross 2,048 by 3,000. Microseconds a call.");
    for (sets, name) in [(auto, "auto"), (cross, "cross")] {
        for (kept, reach) in REACHES {
            points(table, sets, &format!("{name}, {kept}"), reach);
        }
    }
    table.head("16x16x16 cells auto; cross with the block beside it. Microseconds a call.");
    let width = [1.0, 0.75, 0.5];
    let one = Sets::Blocks(numbers.block(16, [0; 3]), None, width);
    let beside = others.block(14, [0, 0, 16]);
    let two = Sets::Blocks(numbers.block(16, [0; 3]), Some(beside), width);
    for (sets, name) in [(one, "auto"), (two, "cross")] {
        blocks(table, sets, name);
    }
}

fn points(table: &mut Table, sets: Sets, name: &str, reach: f64) {
    let few = values(16);
    let many = values(256);
    for bins in [32, 256] {
        let edges = squares(bins, reach);
        let mean = Case::new(sets, Edges::Irregular(&edges), Kind::ComponentSumMean);
        table.row(&format!("points {name}, mean, irregular {bins}"), &mean);
        let mean = Case::new(sets, even(reach * reach, bins), Kind::ComponentSumMean);
        table.row(&format!("points {name}, mean, regular {bins}"), &mean);
    }
    let wide = squares(32, reach);
    let narrow = squares(16, reach);
    let kinds = [
        ("irregular 32, even values 16", &wide, EVEN_VALUES),
        (
            "irregular 32, irregular values 16",
            &wide,
            Edges::Irregular(&few),
        ),
        (
            "irregular 16, irregular values 256",
            &narrow,
            Edges::Irregular(&many),
        ),
    ];
    for (kind, edges, value) in kinds {
        let kind_of = Kind::ComponentSumHistogram(value);
        let case = Case::new(sets, Edges::Irregular(edges), kind_of);
        table.row(&format!("points {name}, histogram, {kind}"), &case);
    }
    let kind = Kind::ComponentSumHistogram(EVEN_VALUES);
    let case = Case::new(sets, even(reach * reach, 32), kind);
    table.row(
        &format!("points {name}, histogram, regular 32, even values 16"),
        &case,
    );
}

fn blocks(table: &mut Table, sets: Sets, name: &str) {
    for bins in [32, 256] {
        let edges = squares(bins, 20.0);
        let mean = Case::new(sets, Edges::Irregular(&edges), Kind::ComponentSumMean);
        table.row(&format!("blocks {name}, mean, irregular {bins}"), &mean);
        let mean = Case::new(sets, even(400.0, bins), Kind::ComponentSumMean);
        table.row(&format!("blocks {name}, mean, regular {bins}"), &mean);
    }
    let edges = squares(16, 20.0);
    let (few, many) = (values(16), values(256));
    let kinds = [
        ("even values 16", EVEN_VALUES),
        ("irregular values 16", Edges::Irregular(&few)),
        ("irregular values 256", Edges::Irregular(&many)),
    ];
    for (kind, value) in kinds {
        let kind_of = Kind::ComponentSumHistogram(value);
        let case = Case::new(sets, Edges::Irregular(&edges), kind_of);
        table.row(
            &format!("blocks {name}, histogram, irregular 16, {kind}"),
            &case,
        );
    }
}

/// Values that are edges, and values past the ends: what hints and guesses do not settle at once.
pub fn directed(table: &mut Table) {
    table.head("4,096 points auto: values on edges and past the ends. Microseconds a call.");
    let (whole, numbers) = (Numbers::whole(4096, 5), Numbers::new(4096, 1));
    let sets = Sets::Points(whole.points(4096), None);
    let edges: Vec<f64> = (0..=25).map(|k| f64::from(k * k)).collect();
    let many: Vec<f64> = (0..=256).map(|k| f64::from(5 * k / 2)).collect();
    let value: Vec<f64> = (0..=16).map(|k| f64::from(12 * k - 97)).collect();
    let (distances, value) = (Edges::Irregular(&edges), Edges::Irregular(&value));
    let kinds = [
        ("mean, irregular 25", distances, Kind::ComponentSumMean),
        (
            "mean, irregular 256",
            Edges::Irregular(&many),
            Kind::ComponentSumMean,
        ),
        ("mean, regular 32", even(640.0, 32), Kind::ComponentSumMean),
        (
            "histogram, irregular 25, irregular values 16",
            distances,
            Kind::ComponentSumHistogram(value),
        ),
    ];
    for (name, edges, kind) in kinds {
        let case = Case::new(sets, edges, kind);
        table.row(&format!("points whole, {name}"), &case);
    }
    let sets = Sets::Points(numbers.points(4096), None);
    let narrow = Edges::Regular {
        min: -0.05,
        max: 0.05,
        n: 16,
    };
    let kind = Kind::ComponentSumHistogram(narrow);
    let case = Case::new(sets, even(1.0, 32), kind);
    table.row(
        "points past the ends, histogram, regular 32, narrow values 16",
        &case,
    );
}

/// From the smallest sets on.
pub fn growth(table: &mut Table) {
    let numbers = Numbers::new(4096, 3);
    for bins in [32, 256] {
        let edges = squares(bins, 1.0);
        table.head(&format!(
            "Points auto, mean, {bins} bins: from 2 points to 4,096. Microseconds a call."
        ));
        for count in [2, 3, 4, 6, 8, 12, 16, 20, 24, 30, 64, 128, 256, 1024, 4096] {
            let sets = Sets::Points(numbers.points(count), None);
            let case = Case::new(sets, Edges::Irregular(&edges), Kind::ComponentSumMean);
            table.row(&format!("grow {count} points, irregular {bins}"), &case);
            let case = Case::new(sets, even(1.0, bins), Kind::ComponentSumMean);
            table.row(&format!("grow {count} points, regular {bins}"), &case);
        }
        table.head(&format!(
            "Blocks auto, mean, {bins} bins: from 2x2x2 cells to 16x16x16. Microseconds a call."
        ));
        for n in [2, 3, 4, 6, 8, 12, 16] {
            let sets = Sets::Blocks(numbers.block(n, [0; 3]), None, [1.0, 0.75, 0.5]);
            let edges = squares(bins, 1.25 * n as f64);
            let case = Case::new(sets, Edges::Irregular(&edges), Kind::ComponentSumMean);
            table.row(&format!("grow {n}x{n}x{n} cells, irregular {bins}"), &case);
        }
    }
    table.head("Blocks auto, histogram: 4x4x4 and 8x8x8 cells. Microseconds a call.");
    let few = values(16);
    let kinds = [
        ("even values 16", EVEN_VALUES),
        ("irregular values 16", Edges::Irregular(&few)),
    ];
    for (n, (kind, value)) in [4, 8].into_iter().flat_map(|n| kinds.map(|k| (n, k))) {
        let sets = Sets::Blocks(numbers.block(n, [0; 3]), None, [1.0, 0.75, 0.5]);
        let edges = squares(16, 1.25 * n as f64);
        let kind_of = Kind::ComponentSumHistogram(value);
        let case = Case::new(sets, Edges::Irregular(&edges), kind_of);
        table.row(
            &format!("grow {n}x{n}x{n} cells, histogram, irregular 16, {kind}"),
            &case,
        );
    }
}

/// Every kind of run on a stack of 128 KB: one that needs more ends the program.
pub fn small_stack() {
    let calls = || {
        let numbers = Numbers::new(512, 4);
        let (edges, value) = (squares(16, 1.0), values(256));
        let kinds = [
            Kind::ComponentSumMean,
            Kind::ComponentSumHistogram(Edges::Irregular(&value)),
        ];
        let (a, b) = (numbers.points(512), numbers.points(300));
        let (g, h) = (numbers.block(8, [0; 3]), numbers.block(6, [0, 0, 8]));
        let width = [0.1; 3];
        let sets = [
            Sets::Points(a, None),
            Sets::Points(a, Some(b)),
            Sets::Blocks(g, None, width),
            Sets::Blocks(g, Some(h), width),
        ];
        for (sets, kind) in sets.iter().flat_map(|s| kinds.map(|k| (s, k))) {
            let case = Case::new(*sets, Edges::Irregular(&edges), kind);
            library(&case, &mut vec![0.0; case.numbers()]);
        }
    };
    let thread = std::thread::Builder::new().stack_size(128 * 1024);
    thread
        .spawn(calls)
        .expect("no thread")
        .join()
        .expect("a call failed");
    println!("\nevery kind of run ended on a stack of 128 KB");
}
