//! hem-year where a table has the fixed rate ach_cooling, which is retired: what is said with its lines, and how its
//! year goes on.
mod common;
#[path = "common/fixed_rate.rs"]
mod fixed_rate;
#[path = "common/small.rs"]
mod small;

use common::Folder;
use fixed_rate::with_fixed_rates;
use hem_zone::Book;
use small::{edited, HOURS, HOUSE};

/// The hours of the table as older ones have them.
fn old_table() -> String {
    edited(HOURS, ",rate,", ",ach_cooling,")
}

/// Two more hours behind a table of three.
const MORE: &str = "\n1 Jan,23,100,0,1,1,20,24,20,0.25,20,18,0,0,1,4\n\
                    1 Jan,23,100,0,1,1,20,24,20,1e-7,20,18,0,0,1,5\n";

const TWO: [&str; 2] = [
    "h.csv:6: hour 4 (1 Jan 03:00): its rate is fixed (ach_cooling), which is retired; rate = 0.25 is the same hour \
     (refusal 8)",
    "h.csv:7: hour 5 (1 Jan 04:00): its rate is fixed (ach_cooling), which is retired; rate = 1e-7 is the same hour \
     (refusal 8)",
];

/// As a user meets it: old files, what is said, the change, the conversion, and the run that goes on.
#[test]
fn an_old_table_and_its_book_go_on() {
    let folder = Folder::new("fixed_table");
    folder.write("h.toml", HOUSE.as_bytes());
    folder.write("h.csv", HOURS.as_bytes());
    let run = |hours: &str, book: &str| folder.call(&["run", "h.toml", hours, book]);
    run("h.csv", "h.book").done();
    let book = Book::take_up(&folder.read("h.book")).unwrap();
    let bytes = with_fixed_rates(&book, [0, 1, 2]);
    folder.write("h.book", &bytes);

    folder.write("h.csv", old_table().as_bytes());
    let said = run("h.csv", "h.book").done();
    assert!(said.starts_with("h.book: 3 hours were held (3 of version 2), 0 appended, "), "{said}");
    // More of the old hours, behind an empty line.
    folder.write("h.csv", (old_table() + MORE).as_bytes());
    let first = "hem-year: h.csv: 2 faults; to rename ach_cooling to rate is enough, once the book is converted by \
                 `hem-year convert h.book NEW`; the book is left as it is";
    assert_eq!(run("h.csv", "h.book").listed(), [&[first][..], &TWO].concat());
    let answer = folder.call(&["check", "h.toml", "h.csv"]);
    let said = String::from_utf8(answer.0.stdout.clone()).unwrap();
    answer.failed(1, "hem-year: 5 faults; to rename ach_cooling to rate is enough\n");
    let held = "h.csv:2: hour 1 (1 Jan 00:00): its rate is fixed (ach_cooling), which is retired; rate = 0.5 is the";
    assert!(said.starts_with(held) && said.ends_with(&(TWO.join("\n") + "\n")), "{said}");
    assert_eq!(said.lines().count(), 5);

    let new = HOURS.to_string() + MORE;
    folder.write("new.csv", new.as_bytes());
    let words = "hem-year: h.book: hour 1 (1 Jan 00:00) has a fixed rate in the book, where new.csv has rate = 0.5, which \
                 is the same hour; `hem-year convert h.book NEW` writes all such hours of the book anew; the book is left \
                 as it is\n";
    run("new.csv", "h.book").failed(2, words);
    assert!(folder.read("h.book") == bytes);
    folder.call(&["convert", "h.book", "new.book"]).done();
    let said = run("new.csv", "new.book").done();
    assert!(said.contains("3 hours were held (3 of version 2), 2 appended "), "{said}");
    run("new.csv", "whole.book").done();
    assert!(folder.read("new.book") == folder.read("whole.book"));
    let praise = folder.call(&["check", "h.toml", "new.csv"]).done();
    assert!(praise.contains("no faults"), "{praise}");
    // The old table does not fit the new book.
    let words = "hem-year: new.book: hour 1 (1 Jan 00:00) has a fixed rate (ach_cooling) in h.csv, where the book has the \
                 rate for windows open and closed, which is the same hour; in h.csv it has to be rate = 0.5; the book is \
                 left as it is\n";
    run("h.csv", "new.book").failed(2, words);
    // Without the conversion the held hours keep the one column, and the others have the other.
    let both = edited(HOURS, ",rate,", ",ach_cooling,rate,")
        .replace(",20,0.5,20,18,", ",20,0.5,,20,18,")
        + &MORE.replace(",20,0.25,", ",20,,0.25,").replace(",20,1e-7,", ",20,,1e-7,");
    folder.write("both.csv", both.as_bytes());
    let said = run("both.csv", "h.book").done();
    assert!(said.contains("3 hours were held (3 of version 2), 2 appended "), "{said}");
    assert!(folder.read("h.book").starts_with(&bytes));
}

#[test]
fn a_table_beside_a_book_of_version_1_keeps_its_fixed_rates() {
    let folder = Folder::new("fixed_table_1");
    folder.write("h.toml", HOUSE.as_bytes());
    folder.write("h.csv", HOURS.as_bytes());
    let run = |hours: &str| folder.call(&["run", "h.toml", hours, "h.book", "--entry-version=1"]);
    run("h.csv").done();
    let book = Book::take_up(&folder.read("h.book")).unwrap();
    folder.write("h.csv", (old_table() + MORE).as_bytes());
    // Where no hour that is held has a fixed rate, nothing is to be kept: but here the hours do not agree.
    let words = "has a fixed rate (ach_cooling) in h.csv, where the book has the rate for windows open and closed";
    run("h.csv").failed(2, words);
    folder.write("h.book", &with_fixed_rates(&book, [0, 1, 2]));
    let first = "hem-year: h.csv: 2 faults; the hours that are held keep ach_cooling; the book is left as it is";
    assert_eq!(run("h.csv").listed(), [&[first][..], &TWO].concat());
    folder.write("new.csv", (HOURS.to_string() + MORE).as_bytes());
    let words = "a book with hours of version 1 is not converted, so that new.csv has to keep ach_cooling for the hours \
                 that are held; the book is left as it is\n";
    run("new.csv").failed(2, words);
}

#[test]
fn a_constant_is_told_with_each_line() {
    let folder = Folder::new("fixed_constant");
    let constant = "delta_t_h = 1\nach_cooling = 0.5";
    folder.write("h.toml", edited(HOUSE, "delta_t_h = 1", constant).as_bytes());
    let hours = edited(HOURS, ",rate,", ",").replace(",20,0.5,20,18,", ",20,20,18,");
    folder.write("h.csv", hours.as_bytes());
    let lines = folder.call(&["run", "h.toml", "h.csv", "h.book"]).listed();
    let first =
        "hem-year: h.csv: 3 faults; to rename ach_cooling to rate is enough; no book is begun";
    assert_eq!((lines.len(), lines[0].as_str()), (4, first));
    assert!(lines[3].starts_with("h.csv:4: hour 3 (1 Jan 02:00): its rate is fixed"), "{lines:?}");
    // The hours can be made for a book that holds them.
    folder.call(&["hours", "h.csv", "h.year", "--head", "h.toml"]).done();
    let lines = folder.call(&["run", "h.toml", "h.year", "h.book"]).listed();
    assert_eq!(lines[0], "hem-year: h.year: 3 faults; no book is begun");
    folder
        .write("h.toml", folder.text("h.toml").replace("\nach_cooling = ", "\nrate = ").as_bytes());
    folder.call(&["run", "h.toml", "h.csv", "h.book"]).done();
    assert_eq!(folder.names(), ["h.book", "h.csv", "h.toml", "h.year"]);
}
