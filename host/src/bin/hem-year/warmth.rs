//! For how long it was warm: the time of the hours whose operative temperature is above a threshold at their
//! end.
use crate::sums::Sums;
use crate::words::{length, length_of_time};

/// A temperature above which it is warm, °C, and the heading of its column.
pub struct Threshold {
    pub temperature: f64,
    pub heading: &'static str,
}

/// Those of which reports of overheating tell.
pub const THRESHOLDS: [Threshold; 2] = [
    Threshold { temperature: 26.0, heading: "> 26 °C" },
    Threshold { temperature: 28.0, heading: "> 28 °C" },
];

/// For how long it was above each, as `above 26 °C in 12 hours, above 28 °C in 1 hour`.
pub fn in_words(sums: &Sums) -> String {
    listed(sums, |threshold, time| format!("above {threshold} °C in {}", length_of_time(time)))
}

/// The same where there is little room, as `12 h above 26 °C, 1 h above 28 °C`.
pub fn in_short(sums: &Sums) -> String {
    listed(sums, |threshold, time| format!("{} h above {threshold} °C", length(time)))
}

fn listed(sums: &Sums, told: fn(f64, f64) -> String) -> String {
    let each = THRESHOLDS.iter().zip(sums.warm);
    let words: Vec<String> = each.map(|(t, time)| told(t.temperature, time)).collect();
    words.join(", ")
}
