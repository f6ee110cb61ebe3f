//! `hem-year warm`: when a house got warm, by the operative temperature of its hours.
use crate::calendar::hour_name;
use crate::damage;
use crate::failure::Failure;
use crate::figures::{all_an_hour_long, figures, HourFigures};
use crate::files;
use crate::words::{self, count, grouped, unfinished};
use hem_zone::{first_above, hours_within, nearest_hour, Refusal};
use std::path::Path;

/// What is asked of a book, °C.
pub struct Warm<'a> {
    pub book: &'a Path,
    /// When does it first go above this?
    pub above: Option<f64>,
    /// How many hours are within these, both included?
    pub within: Option<[f64; 2]>,
    /// Which hour is nearest to this?
    pub nearest: Option<f64>,
}

/// Every answer is the engine's; the book is taken up for what stands beside it.
pub fn warm(given: &Warm) -> Result<(), Failure> {
    let bytes = files::read(given.book)?;
    let book = damage::take_up(given.book, &bytes)?;
    let start_up = book.zone().start_up().map_err(|r| Failure::refused(given.book, &r))?;
    let hours = figures(&book, &start_up);
    let held = match hours.is_empty() {
        true => "no hours held".into(),
        false => format!("operative temperature of {}", all_of(&hours)),
    };
    let mut text = format!("{}: {held}\n", given.book.display());
    text += &unfinished(bytes.len() - book.bytes().len());
    if let Some(value) = given.above {
        let hour = first_above(&bytes, value).map_err(|r| refused("above", &r))?;
        text += &format!("Above {value} °C: {}\n", above(&hours, value, hour));
    }
    if let Some([lower, upper]) = given.within {
        let number = hours_within(&bytes, lower, upper).map_err(|r| refused("within", &r))?;
        text += &format!("Within {lower} to {upper} °C: {}\n", within(&hours, number));
    }
    if let Some(value) = given.nearest {
        let hour = nearest_hour(&bytes, value).map_err(|r| refused("nearest", &r))?;
        text += &format!("Nearest to {value} °C: {}\n", nearest(&hours, value, hour));
    }
    files::print(&text)
}

/// The engine turned a question away.
fn refused(option: &str, refusal: &Refusal) -> Failure {
    Failure::Refused(format!("--{option}: {refusal}"))
}

/// How many there are: the engine counts entries, which are steps where they are not all an hour long.
fn all_of(hours: &[HourFigures]) -> String {
    count(hours.len(), if all_an_hour_long(hours) { "hour" } else { "step" })
}

// ---- the answers ----

/// Said of a book that holds no hour.
const EMPTY: &str = "no hour, since none is held";

fn above(hours: &[HourFigures], value: f64, hour: Option<usize>) -> String {
    let ends = |hour: &HourFigures| hour.operative;
    match (hour.and_then(|place| hours.get(place)), hours) {
        (Some(hour), _) => format!(
            "first in {}, from {} before it to {} at its end",
            name(hour),
            told(hour.before, value),
            told(hour.operative, value)
        ),
        (None, []) => EMPTY.into(),
        (None, _) => format!(
            "no hour goes from at or below it to above it; they end at {} to {}",
            told(hours.iter().map(ends).fold(f64::INFINITY, f64::min), value),
            told(hours.iter().map(ends).fold(f64::NEG_INFINITY, f64::max), value)
        ),
    }
}

fn within(hours: &[HourFigures], number: usize) -> String {
    match number {
        _ if hours.is_empty() => EMPTY.into(),
        0 => format!("none of {}", all_of(hours)),
        _ => format!("{} of {}", grouped(number), all_of(hours)),
    }
}

fn nearest(hours: &[HourFigures], value: f64, hour: Option<usize>) -> String {
    match hour.and_then(|place| hours.get(place)) {
        Some(hour) => format!("{}, {} at its end", name(hour), told(hour.operative, value)),
        None => EMPTY.into(),
    }
}

fn name(hour: &HourFigures) -> String {
    hour_name(hour.number - 1, hour.start)
}

/// A temperature on its side of a value.
fn told(temperature: f64, value: f64) -> String {
    format!("{} °C", words::told(temperature, 1, &[value]))
}
