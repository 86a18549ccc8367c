//! Pictures as SVG, written by hand: panels with a grid, curves and envelopes.

use std::fmt::Write as _;
use std::ops::Range;

pub const COLOURS: [&str; 6] = ["#1f5fa8", "#c0392b", "#2e8b57", "#8e44ad", "#d98c00", "#555555"];
const GREY: &str = "#d8d8d8";
const INK: &str = "#333333";

/// A picture under way.
pub struct Picture {
    body: String,
    width: f64,
}

impl Picture {
    pub fn new(width: f64, height: f64, title: &str) -> Self {
        let mut body = String::new();
        let _ = write!(
            body,
            "<svg xmlns=\"http://www.w3.org/2000/svg\" viewBox=\"0 0 {width} {height}\" font-family=\"sans-serif\" \
             font-size=\"11\" fill=\"{INK}\">\n<rect width=\"{width}\" height=\"{height}\" fill=\"#ffffff\"/>\n"
        );
        let mut picture = Self { body, width };
        picture.text(width / 2.0, 18.0, "middle", title);
        picture
    }

    pub fn text(&mut self, x: f64, y: f64, anchor: &str, text: &str) {
        let text = text.replace('&', "&amp;").replace('<', "&lt;");
        let _ = writeln!(self.body, "<text x=\"{x:.1}\" y=\"{y:.1}\" text-anchor=\"{anchor}\">{text}</text>");
    }

    fn line(&mut self, from: (f64, f64), to: (f64, f64), colour: &str) {
        self.path(&[from, to], colour, "none", 1.0);
    }

    fn path(&mut self, points: &[(f64, f64)], colour: &str, fill: &str, width: f64) {
        let _ = write!(self.body, "<path fill=\"{fill}\" stroke=\"{colour}\" stroke-width=\"{width}\" d=\"");
        for (i, (x, y)) in points.iter().enumerate() {
            let _ = write!(self.body, "{}{x:.1} {y:.1}", if i == 0 { "M" } else { "L" });
        }
        self.body.push_str("\"/>\n");
    }

    /// A panel over the picture's width, from one height to another, whose axes have these ends.
    pub fn panel(&mut self, heights: Range<f64>, x: Axis, y: Axis) -> Panel<'_> {
        let left = 62.0;
        let right = self.width - 16.0;
        let mut panel = Panel { left, right, heights, x, y, picture: self };
        panel.grid();
        panel
    }

    pub fn finish(mut self) -> String {
        self.body.push_str("</svg>\n");
        self.body
    }
}

/// An axis: its ends, where it has lines, and what it shows.
pub struct Axis {
    pub ends: Range<f64>,
    pub by_octaves: bool,
    pub ticks: Vec<f64>,
    pub name: String,
}

impl Axis {
    /// An even axis with a line at every step.
    pub fn even(ends: Range<f64>, step: f64, name: &str) -> Self {
        let first = (ends.start / step).ceil() as i64;
        let last = (ends.end / step + 1e-9).floor() as i64;
        Self { ticks: (first..=last).map(|k| k as f64 * step).collect(), ends, by_octaves: false, name: name.into() }
    }

    /// An axis of frequencies.
    pub fn frequencies(ends: Range<f64>) -> Self {
        Self {
            ends,
            by_octaves: true,
            ticks: vec![20.0, 50.0, 100.0, 200.0, 500.0, 1e3, 2e3, 5e3, 1e4, 2e4],
            name: "Hz".into(),
        }
    }

    /// How far along the axis a value stands, 0 to 1; what passes an end stands there.
    fn along(&self, value: f64) -> f64 {
        let part = if self.by_octaves {
            (value / self.ends.start).ln() / (self.ends.end / self.ends.start).ln()
        } else {
            (value - self.ends.start) / (self.ends.end - self.ends.start)
        };
        part.clamp(0.0, 1.0)
    }
}

/// A short form of a tick's number.
fn short(value: f64) -> String {
    if value.abs() >= 1000.0 {
        format!("{}k", value / 1000.0)
    } else {
        format!("{}", (value * 1000.0).round() / 1000.0)
    }
}

/// A panel of a picture.
pub struct Panel<'a> {
    left: f64,
    right: f64,
    heights: Range<f64>,
    x: Axis,
    y: Axis,
    picture: &'a mut Picture,
}

impl Panel<'_> {
    fn across(&self, x: f64) -> f64 {
        self.left + self.x.along(x) * (self.right - self.left)
    }

    fn down(&self, y: f64) -> f64 {
        self.heights.end - self.y.along(y) * (self.heights.end - self.heights.start)
    }

    fn grid(&mut self) {
        for tick in self.x.ticks.clone() {
            let x = self.across(tick);
            self.picture.line((x, self.heights.start), (x, self.heights.end), GREY);
            self.picture.text(x, self.heights.end + 13.0, "middle", &short(tick));
        }
        for tick in self.y.ticks.clone() {
            let y = self.down(tick);
            self.picture.line((self.left, y), (self.right, y), GREY);
            self.picture.text(self.left - 5.0, y + 4.0, "end", &short(tick));
        }
        self.picture.text(self.right, self.heights.end + 26.0, "end", &self.x.name);
        self.picture.text(self.left, self.heights.start - 5.0, "start", &self.y.name);
    }

    /// A name beside the panel's, in the colour of what it names.
    pub fn key(&mut self, place: usize, colour: &str, name: &str) {
        let x = self.left + 140.0 + 130.0 * place as f64;
        let y = self.heights.start - 9.0;
        self.picture.path(&[(x, y), (x + 16.0, y)], colour, "none", 2.5);
        self.picture.text(x + 20.0, y + 4.0, "start", name);
    }

    pub fn curve(&mut self, points: &[(f64, f64)], colour: &str) {
        let points: Vec<_> = points.iter().map(|&(x, y)| (self.across(x), self.down(y))).collect();
        self.picture.path(&points, colour, "none", 1.4);
    }

    /// A mark down the panel at x.
    pub fn mark(&mut self, x: f64, colour: &str) {
        let x = self.across(x);
        self.picture.line((x, self.heights.start), (x, self.heights.end), colour);
    }

    /// The reach of a signal, column by column: values at even steps from x = 0 on.
    pub fn envelope(&mut self, values: &[f64], step: f64, colour: &str) {
        // wide enough that a column of a second's half has a whole turn of 1 kHz
        let columns = ((self.right - self.left) / 3.0) as usize;
        let width = (self.x.ends.end - self.x.ends.start) / columns as f64;
        let (mut tops, mut bottoms) = (Vec::new(), Vec::new());
        for column in 0..columns {
            let x = self.x.ends.start + column as f64 * width;
            let [from, to] = [x, x + width].map(|x| ((x / step).max(0.0) as usize).min(values.len()));
            let within = &values[from..to];
            if within.is_empty() {
                continue;
            }
            let top = within.iter().copied().fold(f64::MIN, f64::max);
            let bottom = within.iter().copied().fold(f64::MAX, f64::min);
            tops.push((self.across(x), self.down(top)));
            bottoms.push((self.across(x), self.down(bottom)));
        }
        bottoms.reverse();
        tops.append(&mut bottoms);
        self.picture.path(&tops, colour, colour, 0.6);
    }
}
