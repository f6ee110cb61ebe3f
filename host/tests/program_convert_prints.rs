//! hem-year convert: what is printed of a converted book is what was printed of the old one.
mod common;
#[path = "common/old_book.rs"]
mod old_book;

use common::plant::BOTH;
use common::table::column;
use common::Folder;
use hem_zone::Book;
use old_book::fixed_rate::{with_a_twin, with_fixed_rates};
use old_book::{fingerprint, old, CONVERT};

// ---- the same year ----

/// The lines in which two prints differ.
fn differing<'a>(one: &'a str, other: &'a str) -> Vec<(&'a str, &'a str)> {
    assert_eq!(one.lines().count(), other.lines().count(), "{one}{other}");
    one.lines().zip(other.lines()).filter(|(a, b)| a != b).collect()
}

#[test]
fn a_converted_book_prints_the_same_year() {
    let (folder, _) = old("convert_prints", 60, &BOTH);
    let all = |words: &[&str]| {
        let old = folder.call(&[&[words[0], "p.book"], &words[1..]].concat()).done();
        let new = folder.call(&[&[words[0], "new.book"], &words[1..]].concat()).done();
        (old, new.replace("new.book", "p.book"))
    };
    folder.call(&CONVERT).done();
    let (old, new) = all(&["report", "--name=P", "--csv=x.csv", "--force"]);
    let found = differing(&old, &new);
    assert_eq!(found.len(), 2, "{found:?}");
    assert!(found[0].0.starts_with("SHA-256 of conditions "), "{found:?}");
    assert!(found[1].0.starts_with("SHA-256 of book "), "{found:?}");
    assert!(old.contains("\nHeating ") && old.contains("\nHorizontal "), "{old}");
    for words in [&["why"][..], &["warm", "--above=19", "--within", "19", "21", "--nearest=20"]] {
        let (old, new) = all(words);
        assert_eq!(old, new);
    }
    // A sentence says how the rate is given, and the rest alike.
    for (hour, fixed) in [("1", true), ("2", false), ("3", true), ("4", true)] {
        let (old, new) = all(&["why", hour]);
        assert_eq!(old == new, !fixed, "{old}{new}");
        let other = old.replace(
            "the air change rate is fixed, at 0 per hour;",
            "the air change rate is 0 per hour, whether the windows are open or closed;",
        );
        assert_eq!(other, new);
    }
}

#[test]
fn only_a_book_with_fixed_rates_has_a_column_for_them() {
    let (folder, _) = old("convert_table", 8, &[]);
    folder.call(&CONVERT).done();
    let table = |book: &str| {
        folder.call(&["report", book, "--csv", "x.csv", "--balance", "--nodes"]).done();
        folder.text("x.csv")
    };
    let (old, new) = (table("p.book"), table("new.book"));
    let rates = |text: &str, names: &[&str]| -> Vec<String> {
        let columns: Vec<Vec<&str>> = names.iter().map(|name| column(text, name)).collect();
        (0..8).map(|row| columns.iter().map(|c| c[row]).collect::<Vec<_>>().join(",")).collect()
    };
    let names = ["rate", "ach_target", "ach_windows_open", "ach_cooling"];
    let fixed: Vec<String> =
        (0..8).map(|i| if i % 4 == 1 { ",0.5,4," } else { ",,,0" }.into()).collect();
    assert_eq!(rates(&old, &names), fixed);
    let today: Vec<String> =
        (0..8).map(|i| if i % 4 == 1 { ",0.5,4" } else { "0,," }.into()).collect();
    assert_eq!(rates(&new, &names[..3]), today);
    assert!(!new.contains("ach_cooling"));
    // Every other column is the same.
    let heading = |text: &str| -> Vec<String> {
        let line = text.lines().find(|line| !line.starts_with('#')).unwrap();
        line.split(',').map(String::from).collect()
    };
    let others: Vec<String> =
        heading(&old).into_iter().filter(|name| name != "ach_cooling").collect();
    assert_eq!(others, heading(&new));
    for name in others.iter().filter(|name| *name != "rate") {
        assert_eq!(column(&old, name), column(&new, name), "{name}");
    }
}

#[test]
fn a_book_is_shown_as_it_is_held() {
    let (folder, _) = old("convert_shown", 4, &[]);
    folder.call(&CONVERT).done();
    for (book, columns) in [
        ("p.book", ",rate,ach_target,ach_windows_open,ach_cooling,"),
        ("new.book", ",rate,ach_target,ach_windows_open,element_1."),
    ] {
        let text = folder.call(&["show", book, "--hours"]).done();
        assert!(text.contains(columns), "{text}");
        folder.write("x.csv", text.as_bytes());
        folder.call(&["hours", "x.csv", "x.year", "--head", "p.head"]).done();
        let held = Book::take_up(&folder.read(book)).unwrap();
        let conditions: Vec<u8> =
            held.entries().flat_map(|entry| entry.conditions_bytes().to_vec()).collect();
        assert!(folder.read("x.year") == conditions);
    }
}

// ---- the README ----

/// The lines that the README shows behind a sentence.
#[track_caller]
fn shown(sentence: &str) -> String {
    let readme = include_str!("../README.md");
    let after = readme.split(sentence).nth(1).unwrap_or_else(|| panic!("{sentence}"));
    let block = after.lines().skip_while(|line| line.is_empty());
    block.map_while(|line| line.strip_prefix("    ")).map(|line| line.to_string() + "\n").collect()
}

/// The fingerprint that hem-year 0.7.0 told of the sample's book, whose nights had a fixed rate.
const OF_0_7: &str = "8293a39740859c2c050a52e13764d005f4a3d3809d0b38c757639606aaa05779\n";

#[test]
fn the_old_book_of_the_readme_is_that_of_the_sample() {
    let folder = Folder::new("convert_readme");
    folder.call(&["sample", "."]).done();
    let table = folder.text("terrace.csv");
    folder.write("old.csv", table.replacen(",rate,", ",ach_cooling,", 1).as_bytes());
    let run = |hours: &str, book: &str| folder.call(&["run", "terrace.toml", hours, book]);
    let told = run("old.csv", "old.book").errors();
    let lines = shown("and `check` does so too:\n");
    assert!(lines.lines().count() == 3 && told.starts_with(&lines), "{lines}{told}");

    run("terrace.csv", "today.book").done();
    let today = Book::take_up(&folder.read("today.book")).unwrap();
    let old = with_fixed_rates(&today, with_a_twin(&today));
    assert_eq!(fingerprint(&old)[23..], *OF_0_7);
    folder.write("old.book", &old);
    let held = run("old.csv", "old.book").done();
    assert!(held.contains("8,760 hours were held (8,760 of version 2), 0 appended"), "{held}");
    let said = folder.call(&["convert", "old.book", "new.book"]).done();
    let lines = shown("with another fingerprint of conditions and book. It says\n");
    let lines = lines.replace("…\n", &fingerprint(today.bytes())[23..]);
    assert_eq!(said, lines);
    assert!(folder.read("new.book") == folder.read("today.book"));
}
