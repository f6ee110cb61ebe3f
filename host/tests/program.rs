//! hem-year: runs, and what becomes of books that are cut, damaged or not the right ones.
mod common;

use common::{Folder, ENTRY, HEAD, HOUR};
use hem_zone::samples::{hour_p, house_p};
use hem_zone::Conditions;
use std::fs;

#[test]
fn a_sample_year_from_end_to_end() {
    let folder = Folder::new("sample");
    folder.call(&["sample", "."]).done();
    folder.call(&["run", "terrace.head", "terrace.year", "terrace.book"]).done();
    let first = folder.read("terrace.book");
    let again = folder.call(&["run", "terrace.head", "terrace.year", "terrace.book"]).done();
    assert!(again.contains("8,760 hours were held (8,760 of version 2), 0 appended"), "{again}");
    assert_eq!(folder.read("terrace.book"), first);

    let options = ["--csv", "year.csv", "--svg", "year.svg"];
    let report = folder.call(&[&["report", "terrace.book"], &options[..]].concat()).done();
    assert!(report.contains("8,760 hours held, from 1 Jan 00:00 to 31 Dec 24:00"), "{report}");
    for words in [
        "terrace: useful floor area 78 m²",
        "Heating",
        "Cooling",
        "used in",
        "Operative  lowest",
        "\n10  ",
    ] {
        assert!(report.contains(words), "{words} in {report}");
    }
    let csv = folder.text("year.csv");
    assert_eq!(csv.lines().filter(|line| !line.starts_with('#')).count(), 8761);
    assert!(csv.lines().last().unwrap().starts_with("8760,2001-12-31T23:00:00,1,"));
    let svg = folder.text("year.svg");
    assert!(svg.starts_with("<svg ") && svg.ends_with("</svg>\n") && !svg.contains("NaN"));
}

#[test]
fn a_year_in_parts_is_the_year_at_once() {
    let folder = Folder::with_house_p("parts", 50);
    let year = folder.read("p.year");
    folder.run().done();
    let whole = folder.read("p.book");
    folder.remove("p.book");
    for hours in [7, 7, 30, 50] {
        folder.write("p.year", &year[..hours * HOUR]);
        folder.run().done();
    }
    assert_eq!(folder.read("p.book"), whole);
    // Fewer hours than are held: nothing to do, and it is said.
    folder.write("p.year", &year[..HOUR]);
    let said = folder.run().done();
    assert!(said.contains("50 hours were held (50 of version 2), 0 appended"), "{said}");
    assert!(said.contains("p.year has only 1 hour; the others stay in the book"), "{said}");
    assert_eq!(folder.read("p.book"), whole);
}

#[test]
fn a_cut_at_any_byte_loses_only_the_hour_being_written() {
    let folder = Folder::with_house_p("cuts", 3);
    folder.run().done();
    let whole = folder.read("p.book");
    for cut in HEAD..whole.len() {
        folder.write("p.book", &whole[..cut]);
        let said = folder.run().done();
        let held = (cut - HEAD) / ENTRY;
        let before = [
            "0 hours were held",
            "1 hour was held (1 of version 2)",
            "2 hours were held (2 of version 2)",
        ][held];
        assert!(said.contains(&format!(": {before}, {} appended", 3 - held)), "{said}");
        let dropped = match (cut - HEAD) % ENTRY {
            0 => "p.book: ".into(),
            1 => "1 byte of an hour that was not written to its end was dropped\n".into(),
            more => {
                format!("{more} bytes of an hour that was not written to its end were dropped\n")
            }
        };
        assert!(said.starts_with(&dropped), "{said}");
        assert_eq!(folder.read("p.book"), whole);
    }
}

#[test]
fn a_damaged_book_is_refused_and_left() {
    let folder = Folder::with_house_p("damaged", 5);
    folder.run().done();
    let mut bytes = folder.read("p.book");
    bytes[HEAD + 3 * ENTRY + 160] ^= 1;
    bytes.extend([7; 30]);
    folder.write("p.book", &bytes);
    let words = "hour 4 (1 Jan 03:00): its stored heating is not what the hour gives (refusal 18); \
                 its first 3 hours are good, and `hem-year cut p.book 3 NEW` keeps them; the file is left";
    folder.run().failed(1, words);
    folder.call(&["report", "p.book"]).failed(1, words);
    assert_eq!(folder.read("p.book"), bytes);

    folder.write("p.book", &bytes[..100]);
    folder.run().failed(1, "the head ends early: 96 bytes of 176 are there (refusal 1)");
    assert_eq!(folder.read("p.book"), &bytes[..100]);
    folder.write("p.book", b"");
    folder.run().failed(1, "(refusal 1)");
}

#[test]
fn the_first_hours_of_a_damaged_book_are_kept() {
    let folder = Folder::with_house_p("keep", 5);
    folder.run().done();
    let whole = folder.read("p.book");
    let mut bytes = whole.clone();
    bytes[HEAD + 3 * ENTRY + 160] ^= 1;
    folder.write("p.book", &bytes);
    let said = folder.call(&["cut", "p.book", "3", "new.book"]).done();
    assert!(said.contains("new.book: the first 3 hours of p.book"), "{said}");
    assert_eq!(folder.read("new.book"), &whole[..HEAD + 3 * ENTRY]);
    folder.call(&["cut", "p.book", "4", "four.book"]).failed(1, "hour 4 (1 Jan 03:00): its stored");
    // Of a damaged book nobody knows how many hours it holds.
    folder.call(&["cut", "p.book", "6", "six.book"]).failed(1, "hour 4 (1 Jan 03:00): its stored");
    folder.write("whole.book", &whole);
    folder
        .call(&["cut", "whole.book", "6", "six.book"])
        .failed(2, "whole.book: holds 5 hours, which is fewer than 6");
    folder.remove("whole.book");
    // A cut goes on to the same book.
    folder.call(&["run", "p.head", "p.year", "new.book"]).done();
    assert_eq!(folder.read("new.book"), whole);
    // A book of the same head is replaced, that which is read never.
    folder.call(&["cut", "p.book", "0", "new.book"]).done();
    assert_eq!(folder.read("new.book"), &whole[..HEAD]);
    folder.call(&["cut", "p.book", "1", "./p.book"]).failed(2, "is read by this cut");
    folder.call(&["cut", "p.book", "1", "./p.book", "--force"]).failed(2, "is read by this cut");
    assert_eq!(folder.read("p.book"), bytes);
    assert_eq!(folder.names(), ["new.book", "p.book", "p.head", "p.year"]);
}

#[test]
fn a_cut_replaces_no_book_of_another_head() {
    let folder = Folder::with_house_p("another", 2);
    folder.run().done();
    let mut other = house_p();
    other.volume = 101.0;
    folder.write("other.head", &other.to_bytes());
    folder.call(&["run", "other.head", "p.year", "other.book"]).done();
    let before = folder.read("other.book");
    let words = "other.book: exists and is not a book of the same head; --force replaces it";
    folder.call(&["cut", "p.book", "1", "other.book"]).failed(2, words);
    folder.call(&["cut", "p.book", "1", "p.year"]).failed(2, "--force replaces it");
    assert_eq!(folder.read("other.book"), before);
    folder.call(&["cut", "--force", "p.book", "1", "other.book"]).done();
    assert_eq!(folder.read("other.book").len(), HEAD + ENTRY);
}

#[test]
fn a_damaged_head_is_told_as_such() {
    let folder = Folder::with_house_p("basis", 5);
    folder.run().done();
    let whole = folder.read("p.book");
    let mut bytes = whole.clone();
    bytes[5] ^= 1;
    folder.write("p.book", &bytes);
    let words = "p.book: its head is damaged: temp_setpnt_basis is 1 in the book, 0 in p.head; with the head \
                 of p.head its first 5 hours are good, and `hem-year cut p.book 5 NEW --head p.head` keeps them";
    folder.run().failed(1, words);
    folder.call(&["cut", "p.book", "5", "new.book", "--head", "p.head"]).done();
    assert_eq!(folder.read("new.book"), whole);
    assert_eq!(folder.read("p.book"), bytes);

    // A length that is wrong moves all entries, but HEAD has the right one.
    (bytes[5], bytes[3]) = (0, bytes[3] ^ 4);
    folder.write("p.book", &bytes);
    folder.run().failed(1, "its head is damaged: its length is 180 in the book, 176 in p.head");
    bytes[HEAD + 2 * ENTRY + 160] ^= 1;
    folder.write("p.book", &bytes);
    folder.run().failed(1, "with the head of p.head its first 2 hours are good");
    bytes[HEAD + 160] ^= 1;
    folder.write("p.book", &bytes);
    folder.run().failed(1, "its head is not that of p.head either: its length is 180");
}

#[test]
fn a_book_of_another_head_or_other_hours_is_left() {
    let folder = Folder::with_house_p("others", 5);
    folder.run().done();
    let mut torn = folder.read("p.book");
    torn.extend([1; 50]);
    folder.write("p.book", &torn);

    let (head, year) = (folder.read("p.head"), folder.read("p.year"));
    let mut other = house_p();
    other.volume = 101.0;
    folder.write("p.head", &other.to_bytes());
    let words =
        "p.book: was begun with another head than p.head: volume is 100 in the book, 101 in p.head";
    folder.run().failed(2, words);
    folder.write("p.head", &head);

    let mut hours: Vec<_> = year.chunks(HOUR).map(<[u8]>::to_vec).collect();
    hours[2] = hour_p(22.0, 25.0).to_bytes();
    folder.write("p.year", &hours.concat());
    let words = "hour 3 (1 Jan 02:00) was calculated with other conditions than p.year has: temp_setpnt_cool \
                 is 24 in the book, 25 in p.year; where the book is wrong, `hem-year cut p.book 2 NEW` keeps";
    folder.run().failed(2, words);
    assert_eq!(folder.read("p.book"), torn);
}

#[test]
fn a_refused_hour_keeps_the_hours_before_it() {
    let folder = Folder::with_house_p("hour", 4);
    let mut year = folder.read("p.year");
    year.extend(hour_p(22.0, 21.0).to_bytes());
    folder.write("p.year", &year);
    let words =
        "hour 5 (1 Jan 04:00): the cooling setpoint 21 °C is below the heating setpoint 22 °C \
                 (refusal 10); the book holds the 4 hours before it";
    folder.run().failed(1, words);
    assert_eq!(folder.read("p.book").len(), HEAD + 4 * ENTRY);
    folder.run().failed(1, words);
    folder.call(&["report", "p.book"]).done();
}

#[test]
fn a_bad_head_or_size_begins_no_book() {
    let folder = Folder::with_house_p("bad", 4);
    let year = folder.read("p.year");
    folder.write("p.year", &year[1..]);
    folder.run().failed(2, "not a whole number of hours of 154 bytes");
    folder.write("p.year", b"");
    folder.run().failed(2, "p.year: is empty: there is no hour to calculate");
    folder.write("p.year", &year[..HOUR].repeat(8785));
    folder.run().failed(1, "p.year: has 8,785 hours, but a book holds at most 8,784 (refusal 17)");
    let mut head = house_p();
    head.elements[0].area = 0.0;
    folder.write("p.head", &head.to_bytes());
    folder.run().failed(1, "p.head: element 1: area is 0, out of its range");
    assert_eq!(folder.names(), ["p.head", "p.year"]);
}

#[test]
fn files_are_not_confused() {
    let folder = Folder::with_house_p("confused", 4);
    let (head, year) = (folder.read("p.head"), folder.read("p.year"));
    folder.call(&["run", "p.head", "p.year", "p.head"]).failed(2, "given as the book");
    folder.call(&["run", "p.head", "p.year", "./p.year"]).failed(2, "given as the book");
    folder.call(&["run", "p.head", "p.year", "."]).failed(2, "is not a regular file");
    folder.call(&["run", "p.head", "p.year", "none/p.book"]).failed(2, "cannot be written");
    folder.call(&["run", "p.head", "none", "p.book"]).failed(2, "none: cannot be read");
    folder.call(&["run", ".", "p.year", "p.book"]).failed(2, "is not a regular file");
    fs::File::create(folder.path("vast")).unwrap().set_len(1 << 40).unwrap();
    folder.call(&["run", "p.head", "vast", "p.book"]).failed(2, "is too large");
    folder.call(&["report", "vast"]).failed(2, "is too large");
    folder.remove("vast");
    folder.call(&["sample", "p.head"]).failed(2, "cannot be made a folder");
    assert_eq!((folder.read("p.head"), folder.read("p.year")), (head, year));
    assert_eq!(folder.names(), ["p.head", "p.year"]);
}

#[test]
fn hours_have_one_name_at_any_length() {
    let folder = Folder::with_house_p("names", 1);
    let quarter = |heat, cool| Conditions { delta_t_h: 0.25, ..hour_p(heat, cool) }.to_bytes();
    let year = [quarter(20.0, 24.0).repeat(6), quarter(22.0, 21.0)].concat();
    folder.write("p.year", &year);
    folder.run().failed(1, "hour 7 (1 Jan 01:30): the cooling setpoint 21 °C is below");
    let mut bytes = folder.read("p.book");
    bytes[HEAD + 5 * ENTRY + 160] ^= 1;
    folder.write("p.book", &bytes);
    folder
        .call(&["report", "p.book"])
        .failed(1, "p.book: hour 6 (1 Jan 01:15): its stored heating");
}
