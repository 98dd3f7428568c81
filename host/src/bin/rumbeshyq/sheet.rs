//! A curve as CSV, and what the sheet and the picture share: a bin in distances.
use rumbeshyq::Curve;

/// One bin, ready to be shown.
pub struct Shown {
    /// Distances: the square roots of the bin's edges.
    pub from: f64,
    pub to: f64,
    pub weight: f64,
    pub total: f64,
    pub mean: Mean,
}

/// A bin's mean, or why it is left out.
#[derive(Clone, Copy, PartialEq)]
pub enum Mean {
    Drawn(f64),
    NoWeight,
    NotFinite,
}

impl Shown {
    /// Half way between the bin's two distances.
    pub fn centre(&self) -> f64 {
        (self.from + self.to) / 2.0
    }
}

/// The bins of a curve in their order.
pub fn shown(curve: &Curve) -> Vec<Shown> {
    let bins = curve.bins.iter().zip(curve.edges.windows(2));
    bins.map(|(bin, edges)| {
        let mean = if bin.weight == 0.0 && bin.total == 0.0 {
            Mean::NoWeight
        } else if bin.weight.is_finite() && bin.mean().is_finite() {
            Mean::Drawn(bin.mean())
        } else {
            Mean::NotFinite
        };
        Shown {
            from: distance(edges[0]),
            to: distance(edges[1]),
            weight: bin.weight,
            total: bin.total,
            mean,
        }
    })
    .collect()
}

/// An edge as a distance; no distance is below zero.
fn distance(edge: f64) -> f64 {
    edge.max(0.0).sqrt()
}

/// The curve as CSV. A bin without a finite mean has an empty cell there, and a note that says why.
pub fn csv(curve: &Curve, semicolon: bool) -> String {
    let names = "bin,from,to,centre,mean,weight,total,squared from,squared to,note";
    let mut text = parted(names, semicolon);
    for (i, bin) in shown(curve).iter().enumerate() {
        let (mean, note) = match bin.mean {
            Mean::Drawn(mean) => (number(mean), ""),
            Mean::NoWeight => (String::new(), "no weight"),
            Mean::NotFinite => (String::new(), "NaN or infinite"),
        };
        let line = [
            i.to_string(),
            number(bin.from),
            number(bin.to),
            number(bin.centre()),
            mean,
            number(bin.weight),
            number(bin.total),
            number(curve.edges[i]),
            number(curve.edges[i + 1]),
            note.to_string(),
        ];
        text.push_str(&parted(&line.join(","), semicolon));
    }
    text
}

/// A line with its end; no field of it holds a comma.
fn parted(line: &str, semicolon: bool) -> String {
    if semicolon {
        line.replace(',', ";").replace('.', ",") + "\n"
    } else {
        line.to_string() + "\n"
    }
}

/// The shortest text that reads back as the same f64.
fn number(x: f64) -> String {
    let size = x.abs();
    if x.is_finite() && size != 0.0 && !(1e-5..1e15).contains(&size) {
        format!("{x:e}")
    } else {
        format!("{x}")
    }
}
