//! Lines, areas, axes and words of a drawing.
use crate::kind::DRAWING_MARK;
use std::fmt::Write;

pub const GRID: &str = "#e4e7eb";
pub const INK: &str = "#1f2933";
pub const FAINT_INK: &str = "#616e7c";

/// The elements of a drawing, as they are written.
#[derive(Default)]
pub struct Canvas {
    body: String,
}

/// Where a text stands against its point.
#[derive(Clone, Copy)]
pub enum Anchor {
    Start,
    Middle,
    End,
}

impl Canvas {
    pub fn line(&mut self, from: (f64, f64), to: (f64, f64), colour: &str) {
        let ((x1, y1), (x2, y2)) = (from, to);
        self.put(format_args!(
            r#"<line x1="{x1:.1}" y1="{y1:.1}" x2="{x2:.1}" y2="{y2:.1}" stroke="{colour}"/>"#
        ));
    }

    pub fn rect(&mut self, x: f64, y: f64, width: f64, height: f64, colour: &str, opacity: f64) {
        self.put(format_args!(
            r#"<rect x="{x:.1}" y="{y:.1}" width="{width:.1}" height="{height:.1}" fill="{colour}" fill-opacity="{opacity}"/>"#
        ));
    }

    /// A closed area without an edge.
    pub fn area(&mut self, points: &[(f64, f64)], colour: &str, opacity: f64) {
        let d = path(points);
        self.put(format_args!(r#"<path d="{d}Z" fill="{colour}" fill-opacity="{opacity}"/>"#));
    }

    /// A line through points.
    pub fn curve(&mut self, points: &[(f64, f64)], colour: &str, width: f64) {
        let d = path(points);
        self.put(format_args!(
            r#"<path d="{d}" fill="none" stroke="{colour}" stroke-width="{width}" stroke-linejoin="round"/>"#
        ));
    }

    pub fn text(&mut self, at: (f64, f64), anchor: Anchor, size: u32, colour: &str, words: &str) {
        let (x, y) = at;
        let anchor = match anchor {
            Anchor::Start => "start",
            Anchor::Middle => "middle",
            Anchor::End => "end",
        };
        let words = escaped(words);
        self.put(format_args!(
            r#"<text x="{x:.1}" y="{y:.1}" text-anchor="{anchor}" font-size="{size}" fill="{colour}">{words}</text>"#
        ));
    }

    pub fn heading(&mut self, at: (f64, f64), size: u32, words: &str) {
        let ((x, y), words) = (at, escaped(words));
        self.put(format_args!(
            r#"<text x="{x:.1}" y="{y:.1}" font-size="{size}" font-weight="600" fill="{INK}">{words}</text>"#
        ));
    }

    /// Keys of colours with their words, ending at the right.
    pub fn legend(&mut self, right: f64, y: f64, keys: &[(&str, &str)]) {
        let mut words = String::new();
        for (place, (colour, name)) in keys.iter().enumerate() {
            let (gap, name) = (if place == 0 { 0 } else { 20 }, escaped(name));
            let _ = write!(
                words,
                r#"<tspan dx="{gap}" font-size="18" fill="{colour}">■</tspan><tspan dx="7">{name}</tspan>"#
            );
        }
        self.put(format_args!(
            r#"<text x="{right:.1}" y="{y:.1}" text-anchor="end" font-size="13" fill="{FAINT_INK}">{words}</text>"#
        ));
    }

    fn put(&mut self, element: std::fmt::Arguments) {
        let _ = writeln!(self.body, "{element}");
    }

    /// The whole drawing.
    pub fn finish(self, width: f64, height: f64, title: &str) -> String {
        format!(
            "{DRAWING_MARK} viewBox=\"0 0 {width} {height}\" \
             width=\"{width}\" height=\"{height}\" \
             font-family=\"'Helvetica Neue', Helvetica, Arial, 'Liberation Sans', 'DejaVu Sans', sans-serif\">\n\
             <title>{}</title>\n\
             <rect width=\"{width}\" height=\"{height}\" fill=\"#ffffff\"/>\n{}</svg>\n",
            escaped(title),
            self.body
        )
    }
}

/// Words as they stand in XML. Characters that XML does not have are left out.
fn escaped(words: &str) -> String {
    let mut text = String::new();
    for character in words.chars() {
        match character {
            '&' => text += "&amp;",
            '<' => text += "&lt;",
            '>' => text += "&gt;",
            '"' => text += "&quot;",
            c if c.is_control() || matches!(c, '\u{fffe}' | '\u{ffff}') => (),
            c => text.push(c),
        }
    }
    text
}

fn path(points: &[(f64, f64)]) -> String {
    let mut d = String::new();
    for (i, (x, y)) in points.iter().enumerate() {
        let _ = write!(d, "{}{x:.1} {y:.1}", if i == 0 { 'M' } else { 'L' });
    }
    d
}

/// The values of an axis: from the first to the last tick.
#[derive(Clone, Copy)]
pub struct Axis {
    pub low: f64,
    pub high: f64,
    step: f64,
}

impl Axis {
    /// An axis that covers the values with about so many steps of 1, 2 or 5 times a power of ten.
    pub fn covering(low: f64, high: f64, steps: f64) -> Self {
        let span = if high > low { high - low } else { 1.0 };
        let rough = span / steps;
        let power = 10f64.powf(rough.log10().floor());
        let step = [1.0, 2.0, 5.0, 10.0]
            .map(|m| m * power)
            .into_iter()
            .find(|step| *step >= rough * 0.999)
            .unwrap_or(10.0 * power);
        let low = (low / step).floor() * step;
        Self { low, high: ((high / step).ceil() * step).max(low + step), step }
    }

    pub fn ticks(&self) -> impl Iterator<Item = f64> + '_ {
        let count = ((self.high - self.low) / self.step).round() as usize;
        (0..=count).map(|i| self.low + i as f64 * self.step)
    }

    /// A tick as its axis writes it.
    pub fn label(&self, value: f64) -> String {
        let decimals = (-self.step.log10().floor()).clamp(0.0, 9.0) as usize;
        let text = format!("{:.*}", decimals, value.abs());
        if value < -self.step / 2.0 {
            format!("−{text}")
        } else {
            text
        }
    }
}

/// A part of the drawing with a scale in each direction.
pub struct Frame {
    pub left: f64,
    pub top: f64,
    pub width: f64,
    pub height: f64,
    pub x: (f64, f64),
    pub y: Axis,
}

impl Frame {
    pub fn right(&self) -> f64 {
        self.left + self.width
    }

    pub fn bottom(&self) -> f64 {
        self.top + self.height
    }

    pub fn px(&self, x: f64) -> f64 {
        self.left + (x - self.x.0) / (self.x.1 - self.x.0) * self.width
    }

    pub fn py(&self, y: f64) -> f64 {
        self.bottom() - (y - self.y.low) / (self.y.high - self.y.low) * self.height
    }

    pub fn at(&self, x: f64, y: f64) -> (f64, f64) {
        (self.px(x), self.py(y))
    }

    /// Lines and numbers of the vertical axis; `write` gives a tick its words.
    pub fn draw_y(&self, canvas: &mut Canvas, write: impl Fn(&Axis, f64) -> String) {
        for tick in self.y.ticks() {
            let y = self.py(tick);
            let colour = if tick.abs() < 1e-9 { "#9aa5b1" } else { GRID };
            canvas.line((self.left, y), (self.right(), y), colour);
            let words = write(&self.y, tick);
            canvas.text((self.left - 10.0, y + 4.5), Anchor::End, 13, FAINT_INK, &words);
        }
    }
}
