//! hem-year convert: the fixed rates of a book written anew, held against the book that the hours make today.
mod common;
#[path = "common/old_book.rs"]
mod old_book;

use common::hours::varied;
use common::plant::{go_on, with_limits, BOTH};
use common::{ENTRY, ENTRY_3, HEAD, HOUR};
use old_book::fixed_rate::with_fixed_rates;
use old_book::{book_of, fingerprint, make_old, old, CONVERT};
use std::fs::{self, Permissions};
use std::os::unix::fs::{symlink, PermissionsExt};

const SAME: &str = "no hour has a fixed rate: the book is the same, byte for byte\n";

// ---- what is converted ----

#[test]
fn the_fixed_rates_of_a_book_are_written_anew() {
    let (folder, today) = old("converted", 12, &[]);
    let before = folder.read("p.book");
    assert_ne!(before, today);
    let said = folder.call(&CONVERT).done();
    let expected = format!(
        "new.book: 12 hours of p.book, 2,772 bytes\n\
         9 hours with a fixed rate written anew, with the rate for windows open and closed; 3 untouched\n{}",
        fingerprint(&today)
    );
    assert_eq!(said, expected);
    assert!(folder.read("new.book") == today && folder.read("p.book") == before);
    // To convert it again changes nothing.
    let said = folder.call(&["convert", "new.book", "again.book"]).done();
    let expected =
        format!("again.book: 12 hours of new.book, 2,772 bytes\n{SAME}{}", fingerprint(&today));
    assert_eq!(said, expected);
    assert!(folder.read("again.book") == today);
    assert_eq!(folder.names(), ["again.book", "new.book", "p.book", "p.head", "p.year"]);
}

#[test]
fn one_hour_with_a_fixed_rate() {
    let (folder, _) = with_limits("convert_one", &varied(3, 1.0), &[]);
    let book = book_of(&folder);
    folder.write("p.book", &with_fixed_rates(&book, [2]));
    let said = folder.call(&CONVERT).done();
    let words = "\n1 hour with a fixed rate written anew, with the rate for windows open and closed; 2 untouched\n";
    assert!(said.contains(words), "{said}");
    assert!(folder.read("new.book") == book.bytes());
}

#[test]
fn hours_of_versions_2_and_3_are_converted() {
    let year = varied(40, 1.0);
    let (folder, _) = with_limits("convert_versions", &year[..20 * HOUR], &["--entry-version=2"]);
    go_on(&folder, &year[..30 * HOUR], &BOTH);
    go_on(&folder, &year, &["--cooling-limit=0"]);
    let today = make_old(&folder);
    assert_eq!(today.len(), HEAD + 20 * ENTRY + 20 * ENTRY_3);
    let said = folder.call(&CONVERT).done();
    assert!(said.starts_with("new.book: 40 hours of p.book, 9,140 bytes\n30 hours with"), "{said}");
    assert!(folder.read("new.book") == today);
}

#[test]
fn a_book_of_no_hours_is_converted() {
    let (folder, _) = old("convert_empty", 1, &[]);
    let head = folder.read("p.head");
    let rest = "no hour has a fixed rate: but for its end the book is the same, byte for byte\n\
                The last 3 bytes are an unfinished hour, which is not counted.\n";
    for (more, told) in [(0, SAME), (3, rest)] {
        folder.write("p.book", &[&head[..], &[0; 3][..more]].concat());
        let said = folder.call(&CONVERT).done();
        let expected =
            format!("new.book: 0 hours of p.book, 180 bytes\n{told}{}", fingerprint(&head));
        assert_eq!(said, expected);
        assert!(folder.read("new.book") == head);
    }
}

#[test]
fn an_unfinished_hour_is_left_out() {
    let (folder, today) = old("convert_rest", 6, &[]);
    let whole = folder.read("p.book");
    let end = HEAD + 5 * ENTRY;
    for (rest, told) in [(1, "byte is"), (4, "4 bytes are"), (215, "215 bytes are")] {
        folder.write("p.book", &whole[..end + rest]);
        let said = folder.call(&CONVERT).done();
        let expected = format!(
            "new.book: 5 hours of p.book, 1,260 bytes\n\
             4 hours with a fixed rate written anew, with the rate for windows open and closed; 1 untouched\n\
             The last {told} an unfinished hour, which is not counted.\n{}",
            fingerprint(&today[..end])
        );
        assert_eq!(said, expected);
        assert!(folder.read("new.book") == today[..end]);
        assert!(folder.read("p.book") == whole[..end + rest]);
    }
}

// ---- what is refused ----

#[test]
fn a_book_with_hours_of_version_1_is_refused() {
    let year = varied(6, 1.0);
    for (hours, words) in
        [(1, "its first hour is"), (4, "its first 4 hours are"), (6, "its first 6 hours are")]
    {
        let (folder, _) =
            with_limits("convert_version_1", &year[..hours * HOUR], &["--entry-version=1"]);
        let more: &[&str] = if hours < 6 { &["--entry-version=2"] } else { &[] };
        go_on(&folder, &year, more);
        let words = format!(
            "hem-year: p.book: {words} of version 1, and a book with such hours is not converted (refusal 24); its year \
             can be calculated anew, by `hem-year run` into another book, from its hours with rate in the place of \
             ach_cooling; the file is left as it is\n"
        );
        // Whatever its rates are.
        for change in [false, true] {
            if change {
                make_old(&folder);
            }
            let before = folder.read("p.book");
            for force in [&[][..], &["--force"]] {
                let answer = folder.call(&[&CONVERT[..], force].concat());
                assert_eq!((answer.errors(), answer.0.stdout.len()), (words.clone(), 0));
                answer.failed(1, "(refusal 24)");
            }
            assert!(folder.read("p.book") == before);
            assert_eq!(folder.names(), ["p.book", "p.head", "p.year"]);
        }
    }
}

#[test]
fn a_damaged_book_is_told_as_a_report_tells_it() {
    for (name, words) in
        [("convert_damaged", &[][..]), ("convert_damaged_1", &["--entry-version=1"])]
    {
        let (folder, _) = old(name, 5, words);
        let whole = folder.read("p.book");
        let with = |change: &dyn Fn(&mut Vec<u8>)| {
            let mut bytes = whole.clone();
            change(&mut bytes);
            bytes
        };
        for (bytes, words) in [
            (
                with(&|bytes| bytes[HEAD + 3 * ENTRY + 160] ^= 1),
                "p.book: hour 4 (1 Jan 03:00): its stored heating is not what the hour gives (refusal 18); its first 3 \
                 hours are good, and `hem-year cut p.book 3 NEW` keeps them; the file is left as it is\n",
            ),
            // The second rate of a fixed one.
            (with(&|bytes| bytes[HEAD + 5 + 105] = 1), "p.book: hour 1 (1 Jan 00:00): its conditions are refused: "),
            (with(&|bytes| bytes.extend([9; 5])), "p.book: behind its 5 hours stand 5 bytes that are no hour"),
            (with(&|bytes| bytes.truncate(100)), "p.book: the head ends early: 96 bytes of 176 are there (refusal 1)"),
            (vec![], "(refusal 1)"),
        ] {
            folder.write("p.book", &bytes);
            let told = folder.call(&["report", "p.book"]).errors();
            let answer = folder.call(&CONVERT);
            assert_eq!((answer.errors(), answer.0.stdout.len()), (told, 0));
            answer.failed(1, words);
            assert!(folder.read("p.book") == bytes);
            assert_eq!(folder.names(), ["p.book", "p.head", "p.year"]);
        }
    }
}

#[test]
fn a_conversion_replaces_only_a_book_of_the_same_head() {
    let (folder, today) = old("convert_kinds", 4, &[]);
    let before = folder.read("p.book");
    // One that is longer, and an empty file.
    for there in [[&before[..], &before[HEAD..]].concat(), vec![]] {
        folder.write("new.book", &there);
        folder.call(&CONVERT).done();
        assert!(folder.read("new.book") == today);
    }
    let mut other = today.clone();
    other[20] ^= 1;
    folder.write("other.book", &other);
    folder.write("notes.txt", b"not to be lost");
    for name in ["other.book", "notes.txt", "p.year"] {
        let there = folder.read(name);
        let words =
            format!("{name}: exists and is not a book of the same head; --force replaces it");
        folder.call(&["convert", "p.book", name]).failed(2, &words);
        assert!(folder.read(name) == there);
    }
    folder.call(&["convert", "p.book", "notes.txt", "--force"]).done();
    assert!(folder.read("notes.txt") == today);
    assert!(folder.read("p.book") == before);
}

#[test]
fn a_book_is_never_its_own_conversion() {
    let (folder, _) = old("convert_itself", 4, &[]);
    let before = folder.read("p.book");
    symlink("p.book", folder.path("link")).unwrap();
    fs::hard_link(folder.path("p.book"), folder.path("twin")).unwrap();
    for name in ["p.book", "./p.book", "link", "twin"] {
        for force in [&[][..], &["--force"]] {
            let words = format!(
                "hem-year: {name}: is read by this conversion and cannot be its result too\n"
            );
            folder.call(&[&["convert", "p.book", name], force].concat()).failed(2, &words);
        }
    }
    assert!(folder.read("p.book") == before && folder.read("twin") == before);
}

#[test]
fn what_cannot_be_read_or_written() {
    let (folder, today) = old("convert_files", 4, &[]);
    folder.call(&["convert", "none.book", "new.book"]).failed(2, "none.book: cannot be read: ");
    folder.call(&["convert", ".", "new.book"]).failed(2, ".: is not a regular file");
    folder
        .call(&["convert", "p.book", "none/new.book"])
        .failed(2, "none/new.book: cannot be written");
    folder.call(&["convert", "p.book", "."]).failed(2, "is a folder");
    folder.call(&["convert", "p.book", "/dev/null", "--force"]).failed(2, "is not a regular file");
    folder.write("new.book", &today[..HEAD + ENTRY]);
    fs::set_permissions(folder.path("new.book"), Permissions::from_mode(0o444)).unwrap();
    folder.call(&CONVERT).failed(2, "new.book: is read-only; --force replaces it");
    assert!(folder.read("new.book") == today[..HEAD + ENTRY]);
    folder.call(&[&CONVERT[..], &["--force"]].concat()).done();
    assert!(folder.read("new.book") == today);
    // A book that is read-only can be read.
    fs::set_permissions(folder.path("p.book"), Permissions::from_mode(0o444)).unwrap();
    folder.call(&["convert", "p.book", "more.book"]).done();
    assert!(folder.read("more.book") == today);
    assert_eq!(folder.names(), ["more.book", "new.book", "p.book", "p.head", "p.year"]);
}
