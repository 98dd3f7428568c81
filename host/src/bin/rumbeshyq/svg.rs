//! The few shapes of SVG that a picture needs.
use std::fmt::Write;

/// A drawing: shapes in the order in which they are laid over each other.
pub struct Drawing {
    text: String,
}

/// How a text stands at its place.
#[derive(Clone, Copy)]
pub enum Stand {
    Start,
    Middle,
    End,
    /// Middle, turned to read upward.
    Upward,
}

impl Drawing {
    pub fn new(width: f64, height: f64, title: &str) -> Drawing {
        let font = "font-family=\"DejaVu Sans, Verdana, Arial, sans-serif\"";
        let mut text = format!(
            "<svg xmlns=\"http://www.w3.org/2000/svg\" width=\"{width}\" height=\"{height}\" \
             viewBox=\"0 0 {width} {height}\" {font}>\n"
        );
        text += &format!("<title>{}</title>\n", escaped(title));
        text += &format!("<rect width=\"{width}\" height=\"{height}\" fill=\"#ffffff\"/>\n");
        Drawing { text }
    }

    fn push(&mut self, shape: std::fmt::Arguments) {
        // writing to a String can't fail
        let _ = self.text.write_fmt(shape);
        self.text.push('\n');
    }

    pub fn line(&mut self, from: [f64; 2], to: [f64; 2], style: &str) {
        let [[x1, y1], [x2, y2]] = [from, to];
        self.push(format_args!(
            "<line x1=\"{x1:.1}\" y1=\"{y1:.1}\" x2=\"{x2:.1}\" y2=\"{y2:.1}\" {style}/>"
        ));
    }

    /// A rectangle by two corners, with a text that a reader of the page can call up.
    pub fn rectangle(&mut self, from: [f64; 2], to: [f64; 2], style: &str, told: &str) {
        let (x, y) = (from[0].min(to[0]), from[1].min(to[1]));
        let (w, h) = ((from[0] - to[0]).abs(), (from[1] - to[1]).abs());
        self.push(format_args!(
            "<rect x=\"{x:.2}\" y=\"{y:.1}\" width=\"{w:.2}\" height=\"{h:.1}\" {style}>{}</rect>",
            told_of(told)
        ));
    }

    pub fn dot(&mut self, at: [f64; 2], radius: f64, style: &str, told: &str) {
        let [x, y] = at;
        self.push(format_args!(
            "<circle cx=\"{x:.1}\" cy=\"{y:.1}\" r=\"{radius}\" {style}>{}</circle>",
            told_of(told)
        ));
    }

    pub fn path(&mut self, points: &[[f64; 2]], style: &str) {
        let list: Vec<String> = points
            .iter()
            .map(|[x, y]| format!("{x:.1},{y:.1}"))
            .collect();
        let list = list.join(" ");
        self.push(format_args!(
            "<polyline points=\"{list}\" fill=\"none\" {style}/>"
        ));
    }

    pub fn text(&mut self, at: [f64; 2], stand: Stand, style: &str, text: &str) {
        let [x, y] = at;
        let text = escaped(text);
        let (anchor, turn) = match stand {
            Stand::Start => ("start", String::new()),
            Stand::Middle => ("middle", String::new()),
            Stand::End => ("end", String::new()),
            Stand::Upward => (
                "middle",
                format!(" transform=\"rotate(-90 {x:.1} {y:.1})\""),
            ),
        };
        self.push(format_args!(
            "<text x=\"{x:.1}\" y=\"{y:.1}\" text-anchor=\"{anchor}\"{turn} {style}>{text}</text>"
        ));
    }

    pub fn finish(mut self) -> String {
        self.text.push_str("</svg>\n");
        self.text
    }
}

fn told_of(told: &str) -> String {
    match told {
        "" => String::new(),
        told => format!("<title>{}</title>", escaped(told)),
    }
}

/// Text as XML takes it; what XML has no place for becomes a space.
fn escaped(text: &str) -> String {
    let mut safe = String::new();
    for c in text.chars() {
        match c {
            '&' => safe.push_str("&amp;"),
            '<' => safe.push_str("&lt;"),
            '>' => safe.push_str("&gt;"),
            '"' => safe.push_str("&quot;"),
            c if c.is_control() || c == '\u{fffe}' || c == '\u{ffff}' => safe.push(' '),
            c => safe.push(c),
        }
    }
    safe
}
