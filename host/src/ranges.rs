//! The ranges of docs/SPECIFICATION.md, for the sentence of a refusal. The engine alone decides what is
//! accepted; here it is only found out which value it meant.
use crate::limits::Limits;
use std::fmt;

/// The numbers from `low` to `high`, both included, or without `low` itself.
#[derive(Clone, Copy, Debug)]
pub(crate) struct Range {
    low: f64,
    high: f64,
    above_low: bool,
}

const fn from(low: f64, high: f64) -> Range {
    Range { low, high, above_low: false }
}

const fn above_zero(high: f64) -> Range {
    Range { low: 0.0, high, above_low: true }
}

pub(crate) const AREA: Range = above_zero(100_000.0);
pub(crate) const PITCH: Range = from(0.0, 180.0);
pub(crate) const COEFFICIENT: Range = from(0.0, 1e6);
pub(crate) const H_PLI: Range = above_zero(1e6);
pub(crate) const K_PLI: Range = from(0.0, 1e7);
pub(crate) const FRACTION: Range = from(0.0, 1.0);
pub(crate) const SKY: Range = from(-10_000.0, 10_000.0);
pub(crate) const DELTA_R: Range = from(0.0, 1_000.0);
pub(crate) const IRRADIANCE: Range = from(0.0, 2_000.0);
pub(crate) const GAINS: Range = from(-1e7, 1e7);
pub(crate) const RATE: Range = from(0.0, 1_000.0);
pub(crate) const TEMPERATURE: Range = from(-100.0, 100.0);
pub(crate) const HEATING_SETPOINT: Range = from(-273.15, 100.0);
pub(crate) const OTHER_SETPOINT: Range = from(-273.15, 1.4e32);
pub(crate) const HOUR_LENGTH: Range = from(0.001, 8_760.0);
pub(crate) const LIMIT: Range = from(1.0, 10_000.0);
/// The limit of a plant, W.
pub(crate) const POWER_LIMIT: Range = from(0.0, Limits::GREATEST);
/// A value of a question about a book, °C.
pub(crate) const QUESTION: Range = from(-1e6, 1e6);
/// The open byte of an element with 0 to 4 treatments.
pub(crate) const OPEN: [Range; 5] =
    [from(0.0, 0.0), from(0.0, 1.0), from(0.0, 3.0), from(0.0, 7.0), from(0.0, 15.0)];

impl Range {
    /// Whether `value` lies in the range; a NaN lies in none.
    pub(crate) fn contains(self, value: f64) -> bool {
        let above = if self.above_low { self.low < value } else { self.low <= value };
        above && value <= self.high
    }
}

impl fmt::Display for Range {
    fn fmt(&self, f: &mut fmt::Formatter) -> fmt::Result {
        let above = if self.above_low { "above " } else { "" };
        write!(f, "{above}{} to {}", plain(self.low), plain(self.high))
    }
}

/// A number as a reader writes it: whole numbers in groups of three, very large ones with an exponent.
pub(crate) fn plain(value: f64) -> String {
    if value.fract() == 0.0 && value.abs() < 1e15 {
        let sign = if value < 0.0 { "-" } else { "" };
        format!("{sign}{}", grouped(value.abs() as u64))
    } else if value != 0.0 && value.is_finite() && !(1e-4..1e15).contains(&value.abs()) {
        format!("{value:e}")
    } else {
        format!("{value}")
    }
}

/// Digits in groups of three: 8784 is 8,784.
fn grouped(value: u64) -> String {
    let digits = value.to_string();
    let mut text = String::new();
    for (place, digit) in digits.chars().enumerate() {
        if place > 0 && (digits.len() - place) % 3 == 0 {
            text.push(',');
        }
        text.push(digit);
    }
    text
}

#[cfg(test)]
mod tests {
    use super::*;

    #[test]
    fn ends_belong_to_a_range_unless_it_says_above() {
        assert!(PITCH.contains(0.0) && PITCH.contains(180.0) && PITCH.contains(-0.0));
        assert!(
            !AREA.contains(0.0) && AREA.contains(f64::MIN_POSITIVE) && AREA.contains(100_000.0)
        );
        assert!(!GAINS.contains(f64::NAN) && !GAINS.contains(f64::INFINITY));
        assert!(OTHER_SETPOINT.contains(1.4e32));
    }

    #[test]
    fn numbers_are_written_plainly() {
        assert_eq!(AREA.to_string(), "above 0 to 100,000");
        assert_eq!(OTHER_SETPOINT.to_string(), "-273.15 to 1.4e32");
        assert_eq!(plain(-1234567.0), "-1,234,567");
        assert_eq!(plain(1e-20), "1e-20");
        assert_eq!(plain(f64::NAN), "NaN");
    }
}
