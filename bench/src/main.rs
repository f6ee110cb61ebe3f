//! Times of the engine through its C interface: houses of 1, 8 and 24 five-node elements and a year of
//! 8,760 hours, at one rate and with windows; books of such years, also with hours stored with the fixed rate; and a
//! weather file of such a year.
mod engine;
mod houses;
mod weather;

use engine::{Engine, Held, Temps};
use hem_zone::ffi::NONE;
use hem_zone::{ENTRY_VERSION_1, ENTRY_VERSION_2};
use std::io::Write;
use std::process::ExitCode;
use std::time::Instant;

/// Nanoseconds for an hour, the best of so many repetitions.
type Figure = fn(&Engine, usize) -> f64;

const HOURS: usize = 8760;
const ELEMENTS: [usize; 3] = [1, 8, 24];
const RATES: [(&str, bool); 2] = [("one-rate", false), ("windows", true)];
const REPETITIONS: usize = 5;

fn main() -> ExitCode {
    let words: Vec<String> = std::env::args().skip(1).collect();
    let repetitions = words.first().map(|word| word.parse::<usize>());
    match (words.as_slice(), repetitions) {
        ([word], _) if word == "totals" => totals(),
        ([word, elements, rate], _) if word == "bytes" => return bytes(elements, rate),
        ([], _) => times(REPETITIONS),
        ([_], Some(Ok(count))) if count > 0 => times(count),
        _ => return usage(),
    }
    ExitCode::SUCCESS
}

fn usage() -> ExitCode {
    eprintln!("usage: bench/run [REPETITIONS | totals | bytes ELEMENTS one-rate|windows]");
    ExitCode::from(2)
}

/// Prints a line; ends where nobody reads it.
fn say(line: String) {
    if writeln!(std::io::stdout(), "{line}").is_err() {
        std::process::exit(2);
    }
}

/// Every house with every kind of rate.
fn for_each_house(mut show: impl FnMut(usize, &str, &Engine)) {
    for elements in ELEMENTS {
        for (rate, windows) in RATES {
            show(elements, rate, &Engine::new(elements, HOURS, windows));
        }
    }
}

fn times(repetitions: usize) {
    let figures: [(&str, Figure); 11] = [
        ("head", head),
        ("demand", demand),
        ("why", why),
        ("update", update),
        ("hour_step", hour_step),
        ("append", append),
        ("take_up", take_up),
        ("first_above", first_above),
        ("hours_within", hours_within),
        ("nearest_hour", nearest_hour),
        ("convert", convert),
    ];
    for (what, time) in figures {
        for_each_house(|elements, rate, engine| {
            say(format!("{what} {elements} {rate} {:.0}", time(engine, repetitions)));
        });
    }
    stored_times(repetitions);
    weather::times(repetitions);
}

/// Of books whose hours are stored with the fixed rate: no call makes them any longer.
fn stored_times(repetitions: usize) {
    let figures: [(&str, Figure); 2] =
        [("take_up", take_up_fixed_rate), ("convert", convert_fixed_rate)];
    for (what, time) in figures {
        for elements in ELEMENTS {
            let engine = Engine::new(elements, HOURS, false);
            say(format!("{what} {elements} fixed {:.0}", time(&engine, repetitions)));
        }
    }
}

/// Nanoseconds for an hour, the best of some repetitions of a whole year.
fn best(repetitions: usize, year: impl FnMut()) -> f64 {
    best_of(repetitions, HOURS, year)
}

/// Nanoseconds for one of so many calls, the best of some repetitions of all of them.
fn best_of(repetitions: usize, calls: usize, mut all: impl FnMut()) -> f64 {
    let once = |all: &mut dyn FnMut()| {
        let start = Instant::now();
        all();
        start.elapsed().as_nanos() as f64 / calls as f64
    };
    (0..repetitions).map(|_| once(&mut all)).fold(f64::INFINITY, f64::min)
}

fn head(engine: &Engine, repetitions: usize) -> f64 {
    best(repetitions, || {
        for _ in engine.hours() {
            engine.head();
        }
    })
}

/// The temperatures before each hour of the year.
fn states(engine: &Engine) -> Vec<Temps> {
    let mut state = engine.start_up();
    let before = |hour: &Vec<u8>| {
        let before = state.clone();
        engine.hour_step(&mut state, hour);
        before
    };
    engine.hours().iter().map(before).collect()
}

/// The demand of each hour from the temperatures that the year has before it.
fn demand(engine: &Engine, repetitions: usize) -> f64 {
    let states = states(engine);
    best(repetitions, || {
        for (state, hour) in states.iter().zip(engine.hours()) {
            std::hint::black_box(engine.demand(state, hour));
        }
    })
}

/// The same hours as in `demand`.
fn why(engine: &Engine, repetitions: usize) -> f64 {
    let states = states(engine);
    best(repetitions, || {
        for (state, hour) in states.iter().zip(engine.hours()) {
            std::hint::black_box(engine.why(state, hour));
        }
    })
}

fn update(engine: &Engine, repetitions: usize) -> f64 {
    let start = engine.start_up();
    best(repetitions, || {
        let mut state = start.clone();
        for hour in engine.hours() {
            engine.update(&mut state, hour);
        }
    })
}

fn hour_step(engine: &Engine, repetitions: usize) -> f64 {
    let start = engine.start_up();
    best(repetitions, || {
        let mut state = start.clone();
        for hour in engine.hours() {
            std::hint::black_box(engine.hour_step(&mut state, hour));
        }
    })
}

fn append(engine: &Engine, repetitions: usize) -> f64 {
    let mut buffer = engine.buffer();
    let begun = engine.begin(&mut buffer);
    best(repetitions, || {
        engine.append_all(ENTRY_VERSION_1, &mut buffer, begun.clone());
    })
}

/// The bytes of the whole year's book.
fn book(engine: &Engine) -> Vec<u8> {
    book_of(engine, ENTRY_VERSION_1)
}

fn book_of(engine: &Engine, version: u64) -> Vec<u8> {
    let mut buffer = engine.buffer();
    let begun = engine.begin(&mut buffer);
    let Held { used, .. } = engine.append_all(version, &mut buffer, begun);
    buffer.truncate(used as usize);
    buffer
}

fn take_up_of(engine: &Engine, book: &[u8], repetitions: usize) -> f64 {
    best(repetitions, || {
        assert_eq!(engine.take_up(book), HOURS as u64);
    })
}

fn take_up(engine: &Engine, repetitions: usize) -> f64 {
    take_up_of(engine, &book(engine), repetitions)
}

fn take_up_fixed_rate(engine: &Engine, repetitions: usize) -> f64 {
    take_up_of(engine, &engine.with_fixed_rate(book(engine)), repetitions)
}

/// A book, and what it must become.
fn convert_to(engine: &Engine, book: &[u8], converted: &[u8], repetitions: usize) -> f64 {
    let mut out = vec![0; book.len()];
    let time = best(repetitions, || {
        assert_eq!(engine.convert(book, &mut out), HOURS as u64);
    });
    assert!(out == converted, "the converted book has other bytes");
    time
}

/// It takes no book with entries of version 1.
fn convert(engine: &Engine, repetitions: usize) -> f64 {
    let book = book_of(engine, ENTRY_VERSION_2);
    convert_to(engine, &book, &book, repetitions)
}

fn convert_fixed_rate(engine: &Engine, repetitions: usize) -> f64 {
    let book = book_of(engine, ENTRY_VERSION_2);
    convert_to(engine, &engine.with_fixed_rate(book.clone()), &book, repetitions)
}

/// No hour is so warm: each is looked at.
fn first_above(engine: &Engine, repetitions: usize) -> f64 {
    let book = book(engine);
    best(repetitions, || {
        assert_eq!(engine.first_above(&book, 1000.0), NONE);
    })
}

fn hours_within(engine: &Engine, repetitions: usize) -> f64 {
    let book = book(engine);
    best(repetitions, || {
        assert_eq!(engine.hours_within(&book, -1000.0, 1000.0), HOURS as u64);
    })
}

fn nearest_hour(engine: &Engine, repetitions: usize) -> f64 {
    let book = book(engine);
    best(repetitions, || {
        assert!(engine.nearest_hour(&book, 21.0) < HOURS as u64);
    })
}

/// kWh of heating and cooling, and the hours that are heated, cooled or have windows open.
fn totals() {
    say("elements rate: heating kWh, cooling kWh, hours heated/cooled/windows".into());
    for_each_house(|elements, rate, engine| {
        let mut state = engine.start_up();
        let (mut heating, mut cooling, mut counts) = (0.0, 0.0, [0; 3]);
        for hour in engine.hours() {
            let out = engine.hour_step(&mut state, hour);
            heating += out[0];
            cooling += out[1];
            for (count, holds) in counts.iter_mut().zip([out[0] > 0.0, out[1] < 0.0, out[2] > 0.5])
            {
                *count += holds as u32;
            }
        }
        let [heated, cooled, windows] = counts;
        say(format!("{elements} {rate}: {heating:.1} {cooling:.1} {heated}/{cooled}/{windows}"));
    });
}

/// Writes the head and the hours of one house, for the programs in C.
fn bytes(elements: &str, rate: &str) -> ExitCode {
    let elements = elements.parse().ok().filter(|n| (1..=24).contains(n));
    let windows = RATES.iter().find(|(name, _)| *name == rate).map(|(_, windows)| *windows);
    let (Some(elements), Some(windows)) = (elements, windows) else {
        return usage();
    };
    match std::io::stdout().write_all(&Engine::new(elements, HOURS, windows).bytes()) {
        Ok(()) => ExitCode::SUCCESS,
        Err(_) => ExitCode::from(2),
    }
}
