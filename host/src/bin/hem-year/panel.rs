//! What the panels of a drawing have in common: where they lie, heading and legend, bars, words below.
use crate::chart::{Anchor, Axis, Canvas, Frame, FAINT_INK, GRID};

pub const WIDTH: f64 = 1200.0;
pub const LEFT: f64 = 78.0;
const INNER: f64 = WIDTH - LEFT - 36.0;

/// The place of a panel: its upper edge and its height.
#[derive(Clone, Copy)]
pub struct Place {
    pub top: f64,
    pub height: f64,
}

/// A panel's place and scales, with its heading and its legend.
pub fn panel(
    canvas: &mut Canvas,
    heading: &str,
    keys: &[(&str, &str)],
    Place { top, height }: Place,
    x: (f64, f64),
    y: Axis,
) -> Frame {
    let frame = Frame { left: LEFT, top, width: INNER, height, x, y };
    canvas.heading((LEFT, top - 16.0), 16, heading);
    canvas.legend(frame.right(), top - 16.0, keys);
    frame
}

/// A bar from zero up, or down where the value is below it; nothing where it is zero.
pub fn bar(canvas: &mut Canvas, frame: &Frame, across: (f64, f64), value: f64, colour: &str) {
    if value == 0.0 {
        return;
    }
    let (left, right) = (frame.px(across.0), frame.px(across.1));
    let (zero, end) = (frame.py(0.0), frame.py(value));
    let gap = 0.12 * (right - left);
    let (width, height) = (right - left - gap, (end - zero).abs());
    canvas.rect(left + gap / 2.0, zero.min(end), width, height, colour, 1.0);
}

/// A line at a place of the horizontal axis, and a number below it.
pub fn number_below(canvas: &mut Canvas, frame: &Frame, x: f64, words: &str) {
    line_at(canvas, frame, x);
    canvas.text((frame.px(x), frame.bottom() + 20.0), Anchor::Middle, 13, FAINT_INK, words);
}

/// Parts of the horizontal axis, one behind the other: a line between them, and below each its name.
pub fn names_below<'a>(
    canvas: &mut Canvas,
    frame: &Frame,
    parts: impl Iterator<Item = (&'a str, f64, f64)>,
) {
    for (name, first, end) in parts {
        line_at(canvas, frame, first);
        let middle = (frame.px(first) + frame.px(end)) / 2.0;
        canvas.text((middle, frame.bottom() + 20.0), Anchor::Middle, 13, FAINT_INK, name);
    }
    line_at(canvas, frame, frame.x.1);
}

fn line_at(canvas: &mut Canvas, frame: &Frame, x: f64) {
    let px = frame.px(x);
    canvas.line((px, frame.top), (px, frame.bottom() + 6.0), GRID);
}

/// A line of words below a panel, ending at its right.
pub fn words_below(canvas: &mut Canvas, frame: &Frame, words: &str) {
    canvas.text((frame.right(), frame.bottom() + 38.0), Anchor::End, 13, FAINT_INK, words);
}
