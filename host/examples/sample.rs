//! Makes the sample survey: a rig basin with an inlet. usage: sample FOLDER
//!
//! Only +, -, *, / and rounding to whole numbers are used, so every machine makes the same files.
use rumbeshyq::{Point, edge_records, point_records};
use std::path::Path;
use std::{env, fs, io, process};

/// The basin in mm: height z, width y, length x. The inlet is in the wall x = 0.
const BASIN: [f64; 3] = [1200.0, 2400.0, 4000.0];
const INLET: [f64; 3] = [700.0, 1200.0, 0.0];
/// The inlet's opening in mm and the speed of the water in it in mm/s.
const OPENING: f64 = 50.0;
const SPEED: f64 = 1100.0;
/// The probe's head in mm: no two places are nearer than this.
const HEAD: f64 = 20.0;
/// Cross-sections of the jet, in mm from the wall.
const SECTIONS: [f64; 10] = [
    60.0, 110.0, 180.0, 270.0, 380.0, 520.0, 700.0, 930.0, 1220.0, 1590.0,
];
const PER_SECTION: usize = 15;
const ELSEWHERE: usize = 234;
const EDDIES: usize = 90;

/// Distances between the bins in mm.
const DISTANCES: [u32; 25] = [
    0, 20, 40, 65, 95, 130, 170, 215, 270, 335, 410, 495, 590, 700, 830, 980, 1150, 1340, 1560,
    1810, 2090, 2410, 2770, 3170, 3600,
];

/// A stream of numbers from a seed (splitmix64).
struct Stream(u64);

impl Stream {
    /// From 0 up to 1.
    fn unit(&mut self) -> f64 {
        self.0 = self.0.wrapping_add(0x9e37_79b9_7f4a_7c15);
        let z = (self.0 ^ (self.0 >> 30)).wrapping_mul(0xbf58_476d_1ce4_e5b9);
        let z = (z ^ (z >> 27)).wrapping_mul(0x94d0_49bb_1331_11eb);
        ((z ^ (z >> 31)) >> 11) as f64 / (1u64 << 53) as f64
    }

    fn within(&mut self, low: f64, high: f64) -> f64 {
        low + (high - low) * self.unit()
    }

    /// About -2 to 2, mostly near 0.
    fn bell(&mut self) -> f64 {
        self.unit() + self.unit() + self.unit() + self.unit() - 2.0
    }

    /// A direction, or nearly none.
    fn arrow(&mut self) -> [f64; 3] {
        [self.bell(), self.bell(), self.bell()]
    }
}

/// An eddy: water that turns about an axis, out to a size.
struct Eddy {
    centre: [f64; 3],
    axis: [f64; 3],
    size: f64,
}

fn minus(a: [f64; 3], b: [f64; 3]) -> [f64; 3] {
    [a[0] - b[0], a[1] - b[1], a[2] - b[2]]
}

fn squared(a: [f64; 3]) -> f64 {
    a[0] * a[0] + a[1] * a[1] + a[2] * a[2]
}

/// A place rounded to the millimetre, kept off the walls, far enough from all others.
fn settle(places: &mut Vec<[f64; 3]>, wish: [f64; 3]) -> bool {
    let place = [0, 1, 2].map(|k| wish[k].round().clamp(30.0, BASIN[k] - 30.0));
    let free = |other: &[f64; 3]| squared(minus(place, *other)) >= HEAD * HEAD;
    let settled = places.iter().all(free);
    if settled {
        places.push(place);
    }
    settled
}

/// The places in the order in which the probe visits them: the jet's sections, then the rest of the basin.
fn places(stream: &mut Stream) -> Vec<[f64; 3]> {
    let mut places = Vec::new();
    for (k, x) in SECTIONS.into_iter().enumerate() {
        let reach = 26.0 + 0.2 * x;
        while places.len() < (k + 1) * PER_SECTION {
            let [z, y] = [stream.bell(), stream.bell()].map(|part| part * reach);
            let along = stream.within(-0.08, 0.08) * x;
            settle(&mut places, [INLET[0] + z, INLET[1] + y, x + along]);
        }
    }
    let all = places.len() + ELSEWHERE;
    while places.len() < all {
        let wish = BASIN.map(|end| stream.within(0.0, end));
        settle(&mut places, wish);
    }
    places
}

fn eddies(stream: &mut Stream) -> Vec<Eddy> {
    let mut eddy = |k: usize| {
        let x = stream.within(0.0, BASIN[2]);
        let spread = if k % 3 == 0 {
            1.0
        } else {
            0.15 + 0.2 * x / BASIN[2]
        };
        let z = INLET[0] + stream.bell() * 350.0 * spread;
        let y = INLET[1] + stream.bell() * 700.0 * spread;
        Eddy {
            centre: [z, y, x],
            axis: stream.arrow().map(|part| part * 150.0),
            size: stream.within(90.0, 200.0) + 0.06 * x,
        }
    };
    (0..EDDIES).map(&mut eddy).collect()
}

/// The round jet: fast on its axis, wider and slower with the distance from the wall.
fn jet(place: [f64; 3]) -> [f64; 3] {
    let [z, y, x] = minus(place, INLET);
    let fade = 1.0 / (1.0 + x / (6.2 * OPENING));
    let half = 20.0 + 0.094 * x;
    let off = 0.414 * (z * z + y * y) / (half * half);
    let along = SPEED * fade / ((1.0 + off) * (1.0 + off));
    let out = along * 0.094 * (1.0 - off) / half;
    [out * z, out * y, along]
}

/// The water's way back along the side walls.
fn back(place: [f64; 3]) -> [f64; 3] {
    let y = (place[1] - INLET[1]) / INLET[1];
    let x = place[2] / BASIN[2];
    let along = 300.0 * (1.0 - 3.0 * y * y) * x * (1.0 - x);
    let across = -90.0 * y * (1.0 - y * y) * (1.0 - 2.0 * x);
    [0.0, across, along]
}

/// What an eddy adds.
fn turn(eddy: &Eddy, place: [f64; 3]) -> [f64; 3] {
    let r = minus(place, eddy.centre).map(|part| part / eddy.size);
    let calm = 1.0 + squared(r);
    let [a, b, c] = eddy.axis;
    [
        b * r[2] - c * r[1],
        c * r[0] - a * r[2],
        a * r[1] - b * r[0],
    ]
    .map(|v| v / (calm * calm))
}

/// The readings: whole mm, whole mm/s, and as weight the number of good bursts, 1 to 5.
fn survey() -> Vec<Point> {
    let mut stream = Stream(20_190_722);
    let places = places(&mut stream);
    let eddies = eddies(&mut stream);
    let read = |place: [f64; 3]| {
        let mut water = [jet(place), back(place)].to_vec();
        water.extend(eddies.iter().map(|eddy| turn(eddy, place)));
        let noise = stream.arrow().map(|part| part * 6.0);
        water.push(noise);
        let sum = |k: usize| water.iter().fold(0.0, |sum, part| sum + part[k]);
        Point {
            position: place,
            value: [0, 1, 2].map(|k| whole(sum(k))),
            weight: whole(0.5 + stream.within(0.0, 2.5) + stream.within(0.0, 2.5)),
        }
    };
    places.into_iter().map(read).collect()
}

/// The nearest whole number, never -0.
fn whole(x: f64) -> f64 {
    x.round() + 0.0
}

fn edges() -> Vec<f64> {
    DISTANCES.iter().map(|d| f64::from(d * d)).collect()
}

fn points_sheet(points: &[Point]) -> String {
    let mut text = "z [mm],y [mm],x [mm],v0 [mm/s],v1 [mm/s],v2 [mm/s],weight\n".to_string();
    for p in points {
        let [z, y, x] = p.position;
        let [v0, v1, v2] = p.value;
        text += &format!("{z},{y},{x},{v0},{v1},{v2},{}\n", p.weight);
    }
    text
}

fn edges_sheet(edges: &[f64]) -> String {
    let lines = edges.iter().map(|e| format!("{e}\n"));
    "edge [mm²]\n".to_string() + &lines.collect::<String>()
}

/// The sample's files by name.
pub fn files() -> [(&'static str, Vec<u8>); 4] {
    let (points, edges) = (survey(), edges());
    [
        ("survey.csv", points_sheet(&points).into_bytes()),
        ("edges.csv", edges_sheet(&edges).into_bytes()),
        ("points.rec", point_records(&points)),
        ("edges.rec", edge_records(&edges)),
    ]
}

fn write(folder: &Path) -> io::Result<()> {
    fs::create_dir_all(folder)?;
    for (name, bytes) in files() {
        fs::write(folder.join(name), bytes)?;
    }
    Ok(())
}

pub fn main() {
    let Some(folder) = env::args_os().nth(1) else {
        eprintln!("usage: sample FOLDER");
        process::exit(2);
    };
    if let Err(e) = write(Path::new(&folder)) {
        eprintln!("sample: {e}");
        process::exit(1);
    }
}
