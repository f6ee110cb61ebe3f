//! A year of a house with plants of several sizes: how often is each too small, and how cold is it then?
//!
//!     hem-year sample house
//!     cargo run --release --offline --example plant house/terrace.head house/terrace.year 6000 4000 3200
//!
//! HEAD and YEAR are the bytes that `hem-year house` and `hem-year hours` make; the sizes are the plants'
//! greatest heating, W.
use hem_zone::{Book, Entry, HeldLimit, Limits, Refusal, Zone};
use std::error::Error;
use std::process::ExitCode;

/// The year with a plant, hour by hour.
fn year_with(zone: &Zone, year: &[u8], limits: Limits) -> Result<Book, Refusal> {
    let mut book = Book::begin(zone)?;
    for hour in year.chunks(zone.layout().conditions_len()) {
        book.append(hour, limits)?;
    }
    Ok(book)
}

/// What an hour asked for beyond the heating that it got, kWh.
fn unmet(entry: &Entry) -> f64 {
    (entry.power() - entry.delivered()) * entry.conditions().delta_t_h / 1000.0
}

fn told(book: &Book) -> String {
    let short: Vec<Entry> =
        book.entries().filter(|entry| entry.held_limit() == Some(HeldLimit::Heating)).collect();
    let coldest = short.iter().map(Entry::temp_operative).fold(f64::INFINITY, f64::min);
    match short.len() {
        0 => "always enough".into(),
        hours => {
            let kwh: f64 = short.iter().map(unmet).sum();
            format!("too small in {hours} hours, by {kwh:.1} kWh; down to {coldest:.1} °C then")
        }
    }
}

/// The answer for each size, a line each.
pub fn answers(words: &[String]) -> Result<String, Box<dyn Error>> {
    let [head, year, sizes @ ..] = words else {
        return Err("usage: plant HEAD YEAR WATTS ...".into());
    };
    let (zone, year) = (Zone::from_head(&std::fs::read(head)?)?, std::fs::read(year)?);
    let mut text = String::new();
    for size in sizes {
        let book = year_with(&zone, &year, Limits::of_heating(size.parse()?))?;
        text += &format!("{size} W: {}\n", told(&book));
    }
    Ok(text)
}

fn main() -> ExitCode {
    let words: Vec<String> = std::env::args().skip(1).collect();
    match answers(&words) {
        Ok(text) => print!("{text}"),
        Err(error) => {
            eprintln!("plant: {error}");
            return ExitCode::FAILURE;
        }
    }
    ExitCode::SUCCESS
}
