//! Books with something behind their hours, or with a changed version: what is told, and what a cut keeps.
mod common;

use common::hours::varied;
use common::{Folder, ENTRY, ENTRY_3, HEAD};
use hem_zone::{Book, ENTRY_VERSION_2, MOST_ENTRIES};

/// House P with so many hours and their book, of version 2 or by these words.
fn folder(name: &str, hours: usize, words: &[&str]) -> Folder {
    let folder = Folder::with_house_p(name, 1);
    folder.write("p.year", &varied(hours, 1.0));
    folder.call(&[&Folder::RUN[..], words].concat()).done();
    folder
}

/// The book is refused by every command that reads it whole, and left.
#[track_caller]
fn refused(folder: &Folder, bytes: &[u8], words: &str) {
    folder.write("p.book", bytes);
    let words = format!("hem-year: p.book: {words}; the file is left as it is\n");
    let warm = ["warm", "p.book", "--above", "20"];
    for command in [&["report", "p.book"][..], &warm, &["show", "p.book"], &Folder::RUN] {
        folder.call(command).failed(1, &words);
    }
    assert!(folder.read("p.book") == bytes);
}

#[test]
fn a_changed_version_hides_no_hour_from_a_cut() {
    let folder = folder("hidden", 50, &[]);
    let whole = folder.read("p.book");
    let good = |number: usize| {
        format!(
            "; its first {number} hours are good, and `hem-year cut p.book {number} NEW` keeps them"
        )
    };
    // An entry of version 3 is longer, so no entry behind it is found any more.
    let mut bytes = whole.clone();
    bytes[HEAD + 15 * ENTRY + 4] = 3;
    let fault = "hour 16 (1 Jan 15:00): its length is 212, not 228 (refusal 18)";
    refused(&folder, &bytes, &format!("{fault}{}", good(15)));
    for asked in ["16", "17", "40", "50", "9000"] {
        let words = format!("p.book: {fault}{}", good(15));
        folder.call(&["cut", "p.book", asked, "new.book"]).failed(1, &words);
    }
    folder.call(&["cut", "p.book", "15", "new.book"]).done();
    assert!(folder.read("new.book") == whole[..HEAD + 15 * ENTRY]);
    // With another head in the place of its own, the way to keep the hours names that head.
    bytes[5] = 1;
    folder.write("p.book", &bytes);
    let words = "`hem-year cut p.book 15 NEW --head p.head` keeps them";
    folder.call(&["cut", "p.book", "40", "new.book", "--head", "p.head"]).failed(1, words);
    // Too many of a good book.
    folder.write("p.book", &whole);
    folder
        .call(&["cut", "p.book", "51", "new.book"])
        .failed(2, "p.book: holds 50 hours, which is fewer than 51");
}

#[test]
fn bytes_behind_the_hours_are_no_hour() {
    let folder = folder("behind", 50, &[]);
    let whole = folder.read("p.book");
    for (rest, told) in [
        (&b"hello\n"[..], "6 bytes that are no hour (their version byte is 111, not 1, 2 or 3)"),
        (&[9; 5], "5 bytes that are no hour (their version byte is 9, not 1, 2 or 3)"),
        (&[0; 215], "215 bytes that are no hour (their version byte is 0, not 1, 2 or 3)"),
    ] {
        let with = |start: &[u8]| [start, rest].concat();
        let words = format!(
            "behind its 50 hours stand {told} (refusal 18); its first 50 hours are good, and `hem-year cut \
             p.book 50 NEW` keeps them"
        );
        refused(&folder, &with(&whole), &words);
        for asked in ["51", "60"] {
            folder.call(&["cut", "p.book", asked, "new.book"]).failed(1, &words);
        }
        folder.call(&["cut", "p.book", "50", "new.book"]).done();
        assert!(folder.read("new.book") == whole);
        let words = format!(
            "behind its 1 hour stand {told} (refusal 18); its first hour is good, and `hem-year cut p.book \
             1 NEW` keeps it"
        );
        refused(&folder, &with(&whole[..HEAD + ENTRY]), &words);
        let words = format!("behind its head stand {told} (refusal 18); no hour before it is held");
        refused(&folder, &with(&whole[..HEAD]), &words);
    }
    // As long as an hour, it may have been one.
    let words =
        "hour 51 (3 Jan 02:00): its version is 9, not 1, 2 or 3 (refusal 18); its first 50 hours";
    folder.write("p.book", &[&whole[..], &[9; ENTRY]].concat());
    folder.call(&["report", "p.book"]).failed(1, words);
    // Without a version byte it is an hour that was not written to its end.
    folder.write("p.book", &[&whole[..], &[9; 4]].concat());
    let said = folder.run().done();
    assert!(said.starts_with("4 bytes of an hour that was not written to its end were dropped\n"));
    assert!(folder.read("p.book") == whole);
}

#[test]
fn one_byte_behind_the_hours_is_told_as_one() {
    let folder = folder("one", 3, &["--heating-limit=1500"]);
    let whole = folder.read("p.book");
    assert_eq!(whole.len(), HEAD + 3 * ENTRY_3);
    folder.write("p.book", &[&whole[..], &[0]].concat());
    let report = folder.call(&["report", "p.book"]).done();
    let words = "\nThe last byte is an unfinished hour, which is not counted.\n";
    assert!(report.contains(words), "{report}");
    let said = folder.run().done();
    let words = "1 byte of an hour that was not written to its end was dropped\n";
    assert!(said.starts_with(words), "{said}");
}

#[test]
fn bytes_behind_a_full_book_can_be_cut_off() {
    let folder = folder("full", 1, &[]);
    let mut book = Book::begin(&folder.read("p.head")).unwrap();
    let hour = varied(1, 1.0);
    for _ in 0..MOST_ENTRIES {
        book.append(&hour, ENTRY_VERSION_2).unwrap();
    }
    let last = book.entry(MOST_ENTRIES - 1).unwrap().bytes();
    for (rest, told) in [(&b"hello\n"[..], "6 more bytes"), (last, "216 more bytes")] {
        let words = format!(
            "behind its 8,784 hours, as many as a book holds, stand {told} (refusal 17); its first 8,784 \
             hours are good, and `hem-year cut p.book 8784 NEW` keeps them"
        );
        refused(&folder, &[book.bytes(), rest].concat(), &words);
        folder.call(&["cut", "p.book", "8785", "new.book"]).failed(1, &words);
        folder.call(&["cut", "p.book", "8784", "new.book"]).done();
        assert!(folder.read("new.book") == book.bytes());
        folder.remove("new.book");
    }
}
