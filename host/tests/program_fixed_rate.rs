//! hem-year where hours have a fixed rate, which is retired: what run and check say of them, and how a book that began
//! with them goes on.
mod common;
#[path = "common/epw.rs"]
mod epw;
#[path = "common/fixed_rate.rs"]
mod fixed_rate;

use common::hours::varied;
use common::plant::{date, go_on, with_limits};
use common::{Folder, ENTRY, HEAD, HOUR};
use epw::{file, line};
use fixed_rate::{fixed, has_rate_twice, with_a_twin, with_fixed_rates};
use hem_zone::Book;
use std::fs;

/// The hours with a fixed rate in the place of the rate twice: three of four.
fn with_fixed(hours: &[u8]) -> Vec<u8> {
    let one = |hour: &[u8]| if has_rate_twice(hour) { fixed(hour) } else { hour.to_vec() };
    hours.chunks(HOUR).flat_map(one).collect()
}

/// House P with these hours, given with fixed rates, and no book.
fn folder(name: &str, hours: usize) -> Folder {
    let folder = Folder::with_house_p(name, 1);
    folder.write("p.year", &with_fixed(&varied(hours, 1.0)));
    folder
}

/// The book of the first hours as an older run made it.
fn old_book(folder: &Folder, hours: usize, words: &[&str]) -> Vec<u8> {
    let given = folder.read("p.year");
    let _ = fs::remove_file(folder.path("p.book"));
    go_on(folder, &varied(hours, 1.0), words);
    let book = Book::take_up(&folder.read("p.book")).unwrap();
    let bytes = with_fixed_rates(&book, with_a_twin(&book));
    folder.write("p.book", &bytes);
    folder.write("p.year", &given);
    bytes
}

/// What is said of an hour of House P, from 0.
fn told(place: usize) -> String {
    format!(
        "p.year: hour {} ({}): its rate is fixed (rate code 0), which is retired; rate code 1 with 0 twice is the \
         same hour (refusal 8)",
        place + 1,
        date(place, 1.0)
    )
}

// ---- run ----

#[test]
fn a_new_book_takes_no_fixed_rate() {
    let folder = folder("fixed_new", 8);
    let all: Vec<String> = [0, 2, 3, 4, 6, 7].map(told).to_vec();
    let first = "hem-year: p.year: 6 faults; no book is begun".to_string();
    assert_eq!(folder.run().listed(), [vec![first], all].concat());
    assert_eq!(folder.names(), ["p.head", "p.year"]);
    // One alone is one sentence.
    folder.write("p.year", &with_fixed(&varied(2, 1.0)));
    folder.run().failed(1, &format!("hem-year: {}; no book is begun\n", told(0)));
    assert_eq!(folder.names(), ["p.head", "p.year"]);
    folder.write("p.year", &varied(8, 1.0));
    folder.run().done();
}

#[test]
fn a_hundred_hours_and_then_their_number() {
    let folder = folder("fixed_many", 200);
    let lines = folder.run().listed();
    let first = "hem-year: p.year: 150 faults, the first 100 are listed; no book is begun";
    assert_eq!((lines.len(), lines[0].as_str()), (101, first));
    let fixed = (0..200).filter(|place| place % 4 != 1);
    assert_eq!(lines[1..], fixed.take(100).map(told).collect::<Vec<_>>());
}

#[test]
fn held_hours_keep_a_fixed_rate_and_no_more_are_taken() {
    let folder = folder("fixed_held", 8);
    for held in [0, 3, 5] {
        old_book(&folder, held.max(1), &[]);
        // A part of an hour stays too.
        let end = HEAD + held * ENTRY;
        let bytes = [&folder.read("p.book")[..end], &[0; 3]].concat();
        folder.write("p.book", &bytes);
        let all: Vec<String> =
            [0, 2, 3, 4, 6, 7].into_iter().filter(|place| *place >= held).map(told).collect();
        let first = format!("hem-year: p.year: {} faults; the book is left as it is", all.len());
        assert_eq!(folder.run().listed(), [vec![first], all].concat());
        assert!(folder.read("p.book") == bytes);
    }
    let bytes = old_book(&folder, 7, &[]);
    folder.run().failed(1, &format!("hem-year: {}; the book is left as it is\n", told(7)));
    assert!(folder.read("p.book") == bytes);
    // All of them are held, and compared.
    let bytes = old_book(&folder, 8, &[]);
    let said = folder.run().done();
    assert_eq!(said, "p.book: 8 hours were held (8 of version 2), 0 appended, 1,908 bytes\n");
    let mut other = folder.read("p.year");
    other[7 * HOUR + 15] ^= 1;
    folder.write("p.year", &other);
    folder.run().failed(2, "hour 8 (1 Jan 07:00) was calculated with other conditions than p.year");
    assert!(folder.read("p.book") == bytes);
}

#[test]
fn a_book_goes_on_behind_fixed_rates_that_it_holds() {
    let folder = folder("fixed_behind", 5);
    let held = old_book(&folder, 5, &[]);
    folder.write("p.year", &[folder.read("p.year"), varied(8, 1.0)[5 * HOUR..].to_vec()].concat());
    let said = folder.run().done();
    assert!(said.contains("5 hours were held (5 of version 2), 3 appended "), "{said}");
    let book = Book::take_up(&folder.read("p.book")).unwrap();
    assert_eq!(book.hours(), 8);
    assert!(book.bytes().starts_with(&held));
}

/// An hour with a fixed rate that a cut took is refused when it is offered anew; with the rate twice it is another
/// hour, and is taken.
#[test]
fn an_hour_that_a_cut_took_is_not_taken_again() {
    let folder = folder("fixed_cut", 8);
    old_book(&folder, 8, &[]);
    folder.call(&["cut", "p.book", "6", "cut.book"]).done();
    let bytes = folder.read("cut.book");
    let run = |book: &str| folder.call(&["run", "p.head", "p.year", book]);
    let lines = run("cut.book").listed();
    assert_eq!(lines[1..], [told(6), told(7)]);
    assert!(folder.read("cut.book") == bytes);
    let mixed = [&folder.read("p.year")[..6 * HOUR], &varied(8, 1.0)[6 * HOUR..]].concat();
    folder.write("p.year", &mixed);
    run("cut.book").done();
    // The converted book has the same hours, at last.
    folder.call(&["convert", "cut.book", "new.book"]).done();
    folder.write("p.year", &varied(8, 1.0));
    run("whole.book").done();
    assert!(folder.read("new.book") == folder.read("whole.book"));
    run("p.book")
        .failed(2, "hour 1 (1 Jan 00:00) has a fixed rate in the book, where p.year has rate");
}

/// Weather may be put into hours that have one: they stay what they are.
#[test]
fn weather_leaves_a_fixed_rate() {
    let folder = folder("fixed_weather", 3);
    folder.write("w.epw", &file(format!("{}\n", line("7.5", "0", "0")).repeat(3)));
    let words = ["weather", "w.epw", "p.year", "new.year", "--head", "p.head"];
    folder.call(&words).done();
    let (mut expected, new) = (folder.read("p.year"), folder.read("new.year"));
    for hour in expected.chunks_mut(HOUR) {
        hour[8..16].copy_from_slice(&7.5_f64.to_be_bytes());
    }
    assert!(new == expected);
    assert_eq!(new[96], 0);
}

/// The engine tests the version first.
#[test]
fn a_version_that_goes_back_is_told_before_a_fixed_rate() {
    let folder = folder("fixed_back", 8);
    let bytes = old_book(&folder, 3, &[]);
    let run = folder.call(&[&Folder::RUN[..], &["--entry-version=1"]].concat());
    run.failed(1, "--entry-version is 1, but its last hour is of version 2");
    assert!(folder.read("p.book") == bytes);
}

/// Of a fixed rate whose second rate is not zero bits there is no hour with the rate twice.
#[test]
fn a_spoilt_fixed_rate_is_refused_by_the_engine() {
    let folder = folder("fixed_spoilt", 1);
    let mut year = folder.read("p.year");
    year[105] = 1;
    folder.write("p.year", &year);
    folder.run().failed(1, "hem-year: hour 1 (1 Jan 00:00): ");
    let answer = folder.call(&["check", "p.head", "p.year"]);
    let said = String::from_utf8(answer.0.stdout.clone()).unwrap();
    answer.failed(1, "1 fault\n");
    let words =
        "p.year: hour 1 (1 Jan 00:00): a fixed rate has a second rate that is not all zero bits\n";
    assert_eq!(said, words);
}

// ---- a book and hours that have it otherwise ----

#[test]
fn a_fixed_rate_in_the_book_alone_is_to_be_converted() {
    let folder = folder("fixed_book", 8);
    let bytes = old_book(&folder, 5, &[]);
    folder.write("p.year", &varied(8, 1.0));
    let words = "hem-year: p.book: hour 1 (1 Jan 00:00) has a fixed rate in the book, where p.year has rate code 1 with \
                 0 twice, which is the same hour; `hem-year convert p.book NEW` writes all such hours of the book anew; \
                 the book is left as it is\n";
    folder.run().failed(2, words);
    assert!(folder.read("p.book") == bytes);
    // What it says goes on, to the book that the hours make at once.
    folder.call(&["convert", "p.book", "new.book"]).done();
    let said = folder.call(&["run", "p.head", "p.year", "new.book"]).done();
    assert!(said.contains("5 hours were held (5 of version 2), 3 appended "), "{said}");
    folder.call(&["run", "p.head", "p.year", "whole.book"]).done();
    assert!(folder.read("new.book") == folder.read("whole.book"));
}

#[test]
fn a_fixed_rate_in_the_hours_alone_is_to_be_written_anew() {
    let (folder, book) = with_limits("fixed_hours", &varied(8, 1.0), &[]);
    folder.write("p.year", &with_fixed(&varied(8, 1.0)));
    let words = "hem-year: p.book: hour 1 (1 Jan 00:00) has a fixed rate (rate code 0) in p.year, where the book has the \
                 rate for windows open and closed, which is the same hour; in p.year it has to be rate code 1 with 0 \
                 twice; the book is left as it is\n";
    folder.run().failed(2, words);
    assert!(folder.read("p.book") == book.bytes());
    // An hour that differs in more than that is another hour.
    let mut year = with_fixed(&varied(8, 1.0));
    year[97] = 0x40;
    folder.write("p.year", &year);
    let words = "hour 1 (1 Jan 00:00) was calculated with other conditions than p.year has: the rate code is 1 in the \
                 book, 0 in p.year; where the book is wrong";
    folder.run().failed(2, words);
}

#[test]
fn a_book_of_version_1_keeps_its_fixed_rates() {
    let folder = folder("fixed_version_1", 8);
    let bytes = old_book(&folder, 5, &["--entry-version=1"]);
    let year = varied(8, 1.0);
    folder.write("p.year", &year);
    let words = "hem-year: p.book: hour 1 (1 Jan 00:00) has a fixed rate in the book, where p.year has rate code 1 with \
                 0 twice, which is the same hour; a book with hours of version 1 is not converted, so that p.year has to \
                 keep rate code 0 for the hours that are held; the book is left as it is\n";
    folder.run().failed(2, words);
    assert!(folder.read("p.book") == bytes);
    let mixed = [&with_fixed(&year[..5 * HOUR])[..], &year[5 * HOUR..]].concat();
    folder.write("p.year", &mixed);
    let said = folder.run().done();
    assert!(said.contains("5 hours were held (5 of version 1), 3 appended "), "{said}");
}

#[test]
fn a_check_of_bytes_tells_all_that_is_wrong_with_an_hour() {
    let folder = folder("fixed_check", 3);
    let mut year = folder.read("p.year");
    year[8..16].copy_from_slice(&200_f64.to_be_bytes());
    folder.write("p.year", &year);
    let answer = folder.call(&["check", "p.head", "p.year"]);
    let said = String::from_utf8(answer.0.stdout.clone()).unwrap();
    answer.failed(1, "hem-year: 3 faults\n");
    let range = "p.year: hour 1 (1 Jan 00:00): temp_ext_air is 200, out of its range -100 to 100"
        .to_string();
    let lines: Vec<&str> = said.lines().collect();
    assert_eq!(lines, [range, told(0), told(2)]);
}
