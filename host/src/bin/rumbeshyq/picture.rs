//! The picture of a curve: the mean against the distance above, the weight of each bin below.
use crate::axis::{Axis, Tick, raised};
use crate::sheet::{Mean, Shown, shown};
use crate::svg::{Drawing, Stand};
use rumbeshyq::Curve;

/// What is written beside the curve.
pub struct Labels<'a> {
    pub title: &'a str,
    pub length: Option<&'a str>,
    pub speed: Option<&'a str>,
}

const WIDTH: f64 = 960.0;
const HEIGHT: f64 = 660.0;
const LEFT: f64 = 104.0;
const RIGHT: f64 = 932.0;
/// Top and foot of the means and of the weights.
const MEANS: [f64; 2] = [112.0, 420.0];
const WEIGHTS: [f64; 2] = [444.0, 580.0];

const INK: &str = "fill=\"#1c2733\"";
const SMALL: &str = "font-size=\"14\" fill=\"#3a4754\"";
const GRID: &str = "stroke=\"#dfe4ea\" stroke-width=\"1\"";
const FRAME: &str = "stroke=\"#6b7885\" stroke-width=\"1\"";
const CURVE: &str = "stroke=\"#14538f\" stroke-width=\"2.2\" stroke-linejoin=\"round\"";
const EXTENT: &str = "stroke=\"#14538f\" stroke-width=\"1.6\" stroke-opacity=\"0.38\"";
const DOT: &str = "fill=\"#14538f\" stroke=\"#ffffff\" stroke-width=\"1\"";
const BAR: &str = "fill=\"#8fb0d1\" stroke=\"#ffffff\" stroke-width=\"0.6\"";
const BELOW: &str = "fill=\"#e0a458\" stroke=\"#ffffff\" stroke-width=\"0.6\"";
const EMPTY: &str = "fill=\"#e9ebee\"";
const ODD: &str = "fill=\"#f6c9c4\"";

/// The three axes.
struct Axes {
    distance: Axis,
    mean: Axis,
    weight: Axis,
}

/// The picture as SVG.
pub fn draw(curve: &Curve, labels: &Labels) -> String {
    let bins = shown(curve);
    let axes = axes(&bins);
    let mut page = Drawing::new(WIDTH, HEIGHT, labels.title);
    left_out(&mut page, &bins, &axes);
    frame(&mut page, &axes);
    titles(&mut page, &bins, &axes, labels);
    weights(&mut page, &bins, &axes);
    means(&mut page, &bins, &axes);
    legend(&mut page, &bins);
    page.finish()
}

fn drawn(bin: &Shown) -> Option<f64> {
    match bin.mean {
        Mean::Drawn(mean) => Some(mean),
        _ => None,
    }
}

fn axes(bins: &[Shown]) -> Axes {
    let ends: Vec<f64> = bins.iter().flat_map(|b| [b.from, b.to]).collect();
    let mut means: Vec<f64> = bins.iter().filter_map(drawn).collect();
    if !means.is_empty() {
        means.push(0.0);
    }
    let sizes = bins.iter().map(|b| b.weight.abs());
    let sizes: Vec<f64> = sizes.filter(|w| *w > 0.0 && w.is_finite()).collect();
    Axes {
        distance: Axis::linear(&ends, [LEFT, RIGHT]),
        mean: Axis::linear(&means, [MEANS[1], MEANS[0]]).roomy(),
        weight: Axis::logarithmic(&sizes, [WEIGHTS[1], WEIGHTS[0]]),
    }
}

/// A band over both panels for each bin that is left out of the line.
fn left_out(page: &mut Drawing, bins: &[Shown], axes: &Axes) {
    for (i, bin) in bins.iter().enumerate() {
        let style = match bin.mean {
            Mean::Drawn(_) => continue,
            Mean::NoWeight => EMPTY,
            Mean::NotFinite => ODD,
        };
        let [from, to] = sides(bin, axes);
        for [top, foot] in [MEANS, WEIGHTS] {
            page.rectangle([from, top], [to, foot], style, &told(i, bin));
        }
    }
}

/// Where a bin begins and ends on the page.
fn sides(bin: &Shown, axes: &Axes) -> [f64; 2] {
    [axes.distance.place(bin.from), axes.distance.place(bin.to)]
}

/// What a bin says of itself.
fn told(i: usize, bin: &Shown) -> String {
    let mean = match bin.mean {
        Mean::Drawn(mean) => format!("mean {mean}"),
        Mean::NoWeight => "no weight, no mean".to_string(),
        Mean::NotFinite => "mean NaN or infinite".to_string(),
    };
    let (from, to) = (bin.from, bin.to);
    format!(
        "bin {i}: distance {from:.1} to {to:.1}, {mean}, weight {}",
        bin.weight
    )
}

/// Grid, ticks and the frames of both panels.
fn frame(page: &mut Drawing, axes: &Axes) {
    for Tick { at, text } in axes.distance.ticks() {
        page.line([at, MEANS[0]], [at, MEANS[1]], GRID);
        page.line([at, WEIGHTS[0]], [at, WEIGHTS[1] + 5.0], GRID);
        page.text([at, WEIGHTS[1] + 22.0], Stand::Middle, SMALL, &text);
    }
    for axis in [&axes.mean, &axes.weight] {
        for Tick { at, text } in axis.ticks() {
            page.line([LEFT - 5.0, at], [RIGHT, at], GRID);
            page.text([LEFT - 10.0, at + 5.0], Stand::End, SMALL, &text);
        }
    }
    let zero = axes.mean.place(0.0);
    if (MEANS[0]..=MEANS[1]).contains(&zero) {
        page.line([LEFT, zero], [RIGHT, zero], FRAME);
    }
    for [top, foot] in [MEANS, WEIGHTS] {
        page.line([LEFT, top], [LEFT, foot], FRAME);
        page.line([LEFT, foot], [RIGHT, foot], FRAME);
    }
}

fn titles(page: &mut Drawing, bins: &[Shown], axes: &Axes, labels: &Labels) {
    let large = format!("font-size=\"21\" font-weight=\"bold\" {INK}");
    page.text([LEFT, 38.0], Stand::Start, &large, labels.title);
    page.text([LEFT, 62.0], Stand::Start, SMALL, &tally(bins));

    let name = format!("font-size=\"15\" {INK}");
    let length = unit(labels.length, "units of the positions", &axes.distance);
    let across = format!("Distance between two places [{length}]");
    let middle = (LEFT + RIGHT) / 2.0;
    page.text([middle, 632.0], Stand::Middle, &name, &across);

    let speed = labels.speed.map(|speed| format!("({speed})²"));
    let speed = unit(speed.as_deref(), "units of the values, squared", &axes.mean);
    let up = format!("Mean of v · v′ [{speed}]");
    let middle = (MEANS[0] + MEANS[1]) / 2.0;
    page.text([24.0, middle], Stand::Upward, &name, &up);
    let middle = (WEIGHTS[0] + WEIGHTS[1]) / 2.0;
    page.text([24.0, middle], Stand::Upward, &name, "Weight");
}

/// An axis' unit, with the power of ten that its numbers are divided by.
fn unit(given: Option<&str>, otherwise: &str, axis: &Axis) -> String {
    let unit = given.unwrap_or(otherwise);
    match axis.power {
        0 => unit.to_string(),
        power => format!("10{} {unit}", raised(power)),
    }
}

fn tally(bins: &[Shown]) -> String {
    let count = |mean: Mean| bins.iter().filter(|b| b.mean == mean).count();
    let empty = count(Mean::NoWeight);
    let odd = count(Mean::NotFinite);
    let mut text = crate::counted(bins.len(), "bin");
    if empty > 0 {
        text += &format!(", {empty} without weight");
    }
    if odd > 0 {
        text += &format!(", {odd} with a mean that is NaN or infinite");
    }
    text
}

/// A bar for each bin with weight, from the foot of its panel.
fn weights(page: &mut Drawing, bins: &[Shown], axes: &Axes) {
    for (i, bin) in bins.iter().enumerate() {
        if bin.weight == 0.0 || !bin.weight.is_finite() {
            continue;
        }
        let [from, to] = sides(bin, axes);
        let top = axes.weight.place(bin.weight.abs());
        let style = if bin.weight < 0.0 { BELOW } else { BAR };
        page.rectangle([from, top], [to, WEIGHTS[1]], style, &told(i, bin));
    }
}

/// The line, broken at each bin that is left out, the bins' extents and a dot at each centre.
fn means(page: &mut Drawing, bins: &[Shown], axes: &Axes) {
    let place = |bin: &Shown| {
        let at = axes.distance.place(bin.centre());
        drawn(bin).map(|mean| [at, axes.mean.place(mean)])
    };
    for piece in bins.split(|bin| drawn(bin).is_none()) {
        let points: Vec<[f64; 2]> = piece.iter().filter_map(place).collect();
        if points.len() > 1 {
            page.path(&points, CURVE);
        }
    }
    for (i, bin) in bins.iter().enumerate() {
        if let Some(at) = place(bin) {
            let [from, to] = sides(bin, axes);
            page.line([from, at[1]], [to, at[1]], EXTENT);
            page.dot(at, 4.0, DOT, &told(i, bin));
        }
    }
}

/// What the shapes mean; only those that occur.
fn legend(page: &mut Drawing, bins: &[Shown]) {
    let any = |test: &dyn Fn(&Shown) -> bool| bins.iter().any(test);
    let y = 90.0;
    let mut x = LEFT;
    let mut item = |page: &mut Drawing, text: &str, style: &str| {
        match style {
            CURVE => {
                page.line([x, y - 5.0], [x + 26.0, y - 5.0], CURVE);
                page.dot([x + 13.0, y - 5.0], 4.0, DOT, "");
            }
            _ => page.rectangle([x + 6.0, y - 11.0], [x + 26.0, y + 1.0], style, ""),
        }
        page.text([x + 34.0, y], Stand::Start, SMALL, text);
        x += 34.0 + 7.1 * text.chars().count() as f64 + 18.0;
    };
    item(page, "mean", CURVE);
    item(page, "weight (log)", BAR);
    if any(&|b| b.weight < 0.0) {
        item(page, "weight below zero", BELOW);
    }
    if any(&|b| b.mean == Mean::NoWeight) {
        item(page, "left out: no weight", EMPTY);
    }
    if any(&|b| b.mean == Mean::NotFinite) {
        item(page, "left out: NaN or infinite", ODD);
    }
}
