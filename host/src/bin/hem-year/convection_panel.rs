//! Convection by month as bars, for a drawing.
use crate::calendar::months;
use crate::chart::{Axis, Canvas, Frame};
use crate::convection::{Direction, DIRECTIONS};
use crate::days;
use crate::monthly::{Month, LATER};
use crate::panel::{bar, names_below, panel, words_below, Place};
use crate::print::Print;
use crate::words::energy;

/// The colours of the directions.
const COLOURS: [&str; 3] = ["#b7862b", "#6b46c1", "#4fb0ae"];

/// What the directions are of.
const BETWEEN: &str =
    "horizontal: walls and windows   ·   upwards: air to ceilings, below 0 floors to air   ·   \
                       downwards: air to floors, below 0 ceilings to air";

/// The hours of the longest month.
const MONTH: f64 = 31.0 * 24.0;

/// The bars of a month take up so much of its room, and no more than so many points.
const SHARE: f64 = 0.72;
const MOST: f64 = 110.0;

/// For each month a bar for each direction: up where the air gave heat to the surfaces, down where they gave
/// heat to the air.
pub fn convection(canvas: &mut Canvas, print: &Print, place: Place) {
    let names = names(print);
    let keys = DIRECTIONS.each_ref().map(|direction| key(print, direction));
    let keys: Vec<_> = COLOURS.into_iter().zip(keys.iter().map(String::as_str)).collect();
    let heading = "Convection into the inner surfaces, kWh a month";
    let x = (0.0, names.len() as f64);
    let frame = panel(canvas, heading, &keys, place, x, scale(&print.months));
    let parts = names.iter().zip(0..).map(|(name, at)| (*name, at.into(), (at + 1).into()));
    names_below(canvas, &frame, parts);
    frame.draw_y(canvas, Axis::label);
    for month in &print.months {
        if let Some(at) = names.iter().position(|name| *name == month.name) {
            bars(canvas, &frame, at as f64, month);
        }
    }
    words_below(canvas, &frame, &note(&print.months));
}

/// The months that there is room for: those of the days that are shown, and what lies past the year.
fn names(print: &Print) -> Vec<&'static str> {
    let shown = days::shown(&print.hours);
    let of_year = months().filter(|(_, first, _)| (*first as usize) < shown);
    let later = print.months.iter().map(|month| month.name).filter(|name| *name == LATER);
    of_year.map(|(name, _, _)| name).chain(later).collect()
}

/// The name of a direction, with the heat of all hours where there are some.
fn key(print: &Print, direction: &Direction) -> String {
    let heat = energy((direction.heat)(&print.sums.convection)).replace('-', "−");
    match print.hours.is_empty() {
        true => direction.name.into(),
        false => format!("{}, {heat} kWh", direction.name),
    }
}

/// The heat of a month, kWh. What lies past the year may be longer than one: then it is the mean of 31 days.
fn heat(month: &Month, direction: &Direction) -> f64 {
    (direction.heat)(&month.sums.convection) / (month.sums.length / MONTH).max(1.0)
}

fn scale(months: &[Month]) -> Axis {
    let heats = || months.iter().flat_map(|month| DIRECTIONS.iter().map(|d| heat(month, d)));
    let (low, high) = (heats().fold(0.0, f64::min), heats().fold(0.0, f64::max));
    // Next to nothing has a scale that can be read.
    Axis::covering(low, high.max(low + 0.1), 4.0)
}

/// The bars of a month, side by side in the middle of its room.
fn bars(canvas: &mut Canvas, frame: &Frame, at: f64, month: &Month) {
    let room = frame.px(1.0) - frame.px(0.0);
    let width = SHARE.min(MOST / room) / DIRECTIONS.len() as f64;
    let mut left = at + 0.5 - 1.5 * width;
    for (direction, colour) in DIRECTIONS.iter().zip(COLOURS) {
        bar(canvas, frame, (left, left + width), heat(month, direction), colour);
        left += width;
    }
}

fn note(months: &[Month]) -> String {
    let long = months.iter().any(|month| month.name == LATER && month.sums.length > MONTH);
    match long {
        true => format!("{BETWEEN}   ·   later: mean of 31 days"),
        false => BETWEEN.into(),
    }
}
