//! Scales and ticks of a picture.

/// A stretch of numbers laid over a stretch of the page.
pub struct Axis {
    low: f64,
    high: f64,
    /// Where `low` and `high` stand on the page.
    pub page: [f64; 2],
    /// Numbers are shown divided by ten to this power.
    pub power: i32,
    logarithmic: bool,
}

/// A tick: where it stands and what is written at it.
pub struct Tick {
    pub at: f64,
    pub text: String,
}

impl Axis {
    /// A linear axis for these numbers, from the least to the largest.
    pub fn linear(numbers: &[f64], page: [f64; 2]) -> Axis {
        let largest = numbers.iter().fold(0.0, |m: f64, x| m.max(x.abs()));
        let power = power_of(largest);
        let (low, high) = span(numbers.iter().map(|x| x / ten(power)));
        Axis {
            low,
            high,
            page,
            power,
            logarithmic: false,
        }
    }

    /// The same axis with some room, up to a tick on either side; zero needs no room.
    pub fn roomy(self) -> Axis {
        let room = 0.02 * (self.high - self.low);
        let low = self.low - if self.low < 0.0 { room } else { 0.0 };
        let high = self.high + if self.high > 0.0 { room } else { 0.0 };
        let step = step_for(high - low);
        Axis {
            low: (low / step).floor() * step,
            high: (high / step).ceil() * step,
            ..self
        }
    }

    /// A logarithmic axis for these positive numbers, from a power of ten well below the least.
    pub fn logarithmic(numbers: &[f64], page: [f64; 2]) -> Axis {
        let (low, high) = span(numbers.iter().map(|x| x.log10()));
        Axis {
            low: (low - 0.3).floor(),
            high: high + 0.04 * (high - low) + 0.05,
            page,
            power: 0,
            logarithmic: true,
        }
    }

    /// Where a number stands on the page.
    pub fn place(&self, number: f64) -> f64 {
        let x = match self.logarithmic {
            true => number.log10(),
            false => number / ten(self.power),
        };
        self.at(x)
    }

    fn at(&self, x: f64) -> f64 {
        let part = (x - self.low) / (self.high - self.low);
        self.page[0] + part * (self.page[1] - self.page[0])
    }

    pub fn ticks(&self) -> Vec<Tick> {
        let step = match self.logarithmic {
            true => ((self.high - self.low) / 5.0).ceil(),
            false => step_for(self.high - self.low),
        };
        let first = (self.low / step - 1e-9).ceil() as i64;
        let last = (self.high / step + 1e-9).floor() as i64;
        let tick = |k: i64| Tick {
            at: self.at(k as f64 * step),
            text: match self.logarithmic {
                true => decade((k as f64 * step) as i32),
                false => label(k as f64 * step, step),
            },
        };
        (first..=last).map(tick).collect()
    }
}

/// The least and the largest number, 0 and 1 if there is none, apart in any case.
fn span(numbers: impl Iterator<Item = f64>) -> (f64, f64) {
    let start = (f64::INFINITY, f64::NEG_INFINITY);
    let (low, high) = numbers.fold(start, |(l, h), x| (l.min(x), h.max(x)));
    if low > high {
        (0.0, 1.0)
    } else if high - low <= high.abs() * 1e-9 {
        let room = if high == 0.0 { 1.0 } else { high.abs() * 0.1 };
        (low - room, high + room)
    } else {
        (low, high)
    }
}

/// 1, 2 or 5 times a power of ten, so that some eight steps fill the span.
fn step_for(span: f64) -> f64 {
    let rough = span / 8.0;
    let base = 10f64.powf(rough.log10().floor());
    let steps = [1.0, 2.0, 5.0, 10.0];
    let enough = steps.into_iter().find(|k| k * base >= rough);
    enough.unwrap_or(10.0) * base
}

/// 0 where numbers are short enough as they stand.
fn power_of(largest: f64) -> i32 {
    if largest == 0.0 || (1e-2..1e6).contains(&largest) {
        0
    } else {
        (largest.log10().floor() as i32).max(-300)
    }
}

fn ten(power: i32) -> f64 {
    10f64.powi(power)
}

/// A tick's number with the decimals that its step needs.
fn label(x: f64, step: f64) -> String {
    let decimals = (-step.log10().floor()).max(0.0) as usize;
    let text = format!("{x:.decimals$}");
    match text.strip_prefix('-') {
        Some(zero) if zero.chars().all(|c| "0.".contains(c)) => zero.to_string(),
        Some(size) => format!("\u{2212}{}", grouped(size)),
        None => grouped(&text),
    }
}

/// Five digits and more are parted in threes by spaces.
fn grouped(text: &str) -> String {
    let whole = text.find('.').unwrap_or(text.len());
    if whole < 5 {
        return text.to_string();
    }
    let mut parts = String::new();
    for (i, c) in text.chars().enumerate() {
        if i > 0 && i < whole && (whole - i) % 3 == 0 {
            parts.push('\u{a0}');
        }
        parts.push(c);
    }
    parts
}

/// Ten to a power, written out where it is short.
fn decade(power: i32) -> String {
    match power {
        0..=6 => grouped(&format!("{}", 10u64.pow(power as u32))),
        -3..0 => format!("{}", ten(power)),
        _ => format!("10{}", raised(power)),
    }
}

/// A power in raised digits.
pub fn raised(power: i32) -> String {
    let digits = ['⁰', '¹', '²', '³', '⁴', '⁵', '⁶', '⁷', '⁸', '⁹'];
    let raise = |c: char| match c.to_digit(10) {
        Some(d) => digits[d as usize],
        None => '⁻',
    };
    power.to_string().chars().map(raise).collect()
}
