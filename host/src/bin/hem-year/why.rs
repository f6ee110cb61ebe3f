//! `hem-year why`: why an hour has its air change rate, and why it asks for heating, cooling or neither.
use crate::calendar::hour_name;
use crate::damage;
use crate::failure::Failure;
use crate::files;
use crate::show::place_of;
use crate::why_hour::Hour;
use crate::why_table::Counts;
use crate::why_text::sentence;
use crate::words::{count, unfinished};
use hem_zone::{Book, Refusal};
use std::path::Path;

/// Says it of an hour, from 1, or counts it over all hours.
pub fn why(path: &Path, hour: Option<usize>) -> Result<(), Failure> {
    let bytes = files::read(path)?;
    let book = damage::take_up(path, &bytes)?;
    let refused = |refusal: Refusal| Failure::refused(path, &refusal);
    let text = match hour {
        Some(number) => of_hour(&book, place_of(path, number, book.hours())?).map_err(refused)?,
        None => {
            let notes = unfinished(bytes.len() - book.bytes().len());
            of_all(path, &book, &notes).map_err(refused)?
        }
    };
    files::print(&text)
}

/// One sentence, on the hour at a place from 0.
fn of_hour(book: &Book, place: usize) -> Result<String, Refusal> {
    let start = book.entries().take(place).map(|entry| entry.conditions().delta_t_h).sum();
    let name = hour_name(place, start).replacen('h', "H", 1);
    let Some(entry) = book.entry(place) else { return Ok(String::new()) };
    let hour = Hour::of(book, place, &entry)?;
    Ok(format!("{name}: {}.\n", sentence(&hour, hour.why()?)))
}

fn of_all(path: &Path, book: &Book, notes: &str) -> Result<String, Refusal> {
    let counts = Counts::of(book)?;
    let held = match book.hours() {
        0 => "no hours held".into(),
        many => {
            format!("reasons for the air change rate of {}", count(many, counts.thing()))
        }
    };
    Ok(format!("{}: {held}\n{notes}{}", path.display(), counts.text()))
}
