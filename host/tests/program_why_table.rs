//! hem-year why without an hour: the reasons of all hours by month, held against the engine's own answers.
mod common;
mod why_sentences;
#[path = "common/why.rs"]
mod worked;

use common::hours::{varied, with_year};
use common::plant::{go_on, with_limits, BOTH};
use common::{Folder, ENTRY, HEAD, HOUR};
use hem_zone::samples::house_p;
use hem_zone::{Basis, Book, Conditions, Head, Load, RateReason};
use why_sentences::{reasons, windows, with_book};

/// The names of the columns.
const HEADING: &str =
    "no choice    not warm    warm air      no use  too little      enough      all";
const MONTHS: [(&str, f64); 12] = [
    ("Jan", 31.0),
    ("Feb", 28.0),
    ("Mar", 31.0),
    ("Apr", 30.0),
    ("May", 31.0),
    ("Jun", 30.0),
    ("Jul", 31.0),
    ("Aug", 31.0),
    ("Sep", 30.0),
    ("Oct", 31.0),
    ("Nov", 30.0),
    ("Dec", 31.0),
];

/// The month in which a time lies that has passed since the year began, hours; sums are rounded.
fn month(time: f64) -> &'static str {
    let mut time = (time * 1e6).round() / 1e6;
    for (name, days) in MONTHS {
        if time < 24.0 * days {
            return name;
        }
        time -= 24.0 * days;
    }
    "later"
}

/// A row of the table: its name, and how many hours have each reason and any.
type Row = (String, [usize; 7]);

/// The rows that the engine's answers make, hour by hour.
fn rows(book: &Book) -> Vec<Row> {
    let all = reasons(book);
    let starts = book.entries().scan(0.0, |start, entry| {
        let own = *start;
        *start += entry.conditions().delta_t_h;
        Some(month(own))
    });
    let months: Vec<&str> = starts.collect();
    let counted = |name: &str, counts: &dyn Fn(usize) -> bool| {
        let places = || (0..all.len()).filter(|place| counts(*place));
        let of = |reason: RateReason| places().filter(|place| all[*place].reason == reason).count();
        let mut row = [0; 7];
        row[..6].copy_from_slice(&RateReason::ALL.map(of));
        row[6] = places().count();
        (name.to_string(), row)
    };
    let mut rows: Vec<Row> = MONTHS
        .iter()
        .map(|(name, _)| *name)
        .chain(["later"])
        .filter(|name| months.contains(name))
        .map(|name| counted(name, &|place| months[place] == name))
        .collect();
    rows.push(counted("Total", &|_| true));
    for (name, load) in
        [("heating", Load::Heating), ("cooling", Load::Cooling), ("neither", Load::Neither)]
    {
        rows.push(counted(name, &|place| all[place].load == load));
    }
    rows
}

/// The rows that a print has.
#[track_caller]
fn printed(said: &str) -> Vec<Row> {
    let mut lines = said.lines().skip_while(|line| line.trim() != HEADING);
    lines.next().unwrap_or_else(|| panic!("{said}"));
    let rows = lines.take_while(|line| !line.is_empty()).map(|line| {
        let mut words = line.split_whitespace();
        let name = words.next().unwrap().to_string();
        let counts: Vec<usize> = words.map(|word| word.replace(',', "").parse().unwrap()).collect();
        (name, counts.try_into().unwrap())
    });
    rows.collect()
}

#[track_caller]
fn must_count(folder: &Folder, book: &Book, title: &str) -> Vec<Row> {
    let said = folder.call(&["why", "p.book"]).done();
    assert!(said.starts_with(&format!("p.book: {title}\n\n")), "{said}");
    let rows = rows(book);
    assert_eq!(printed(&said), rows, "{said}");
    rows
}

// ---- books of every kind ----

/// Hours with windows whose weather and setpoints change, so that every reason occurs.
fn changing(count: usize, delta_t_h: f64) -> Vec<Conditions> {
    let hour = |i: usize| {
        let plain = windows([20.0, 40.0, 60.0, 0.0, 90.0][i % 5]);
        let (ach_target, ach_windows_open) =
            [(0.5, 3.0), (3.0, 0.5), (0.5, 0.5), (0.5, 20.0)][i % 4];
        Conditions {
            delta_t_h,
            avg_air_supply_temp: [15.0, 26.0, 18.0][i % 3],
            temp_setpnt_heat: [18.0, 21.0][i % 2],
            temp_setpnt_cool: [25.0, 23.0, 21.5][i / 7 % 3],
            ach: why_sentences::rates(ach_target, ach_windows_open),
            ..plain
        }
    };
    (0..count).map(hour).collect()
}

#[test]
fn reasons_are_counted_by_month() {
    let (folder, book) = with_book("why_months", &house_p(), &changing(1500, 1.0));
    assert_eq!(book.hours(), 1500);
    let rows = must_count(&folder, &book, "reasons for the air change rate of 1,500 hours");
    let names: Vec<&str> = rows.iter().map(|(name, _)| name.as_str()).collect();
    assert_eq!(names, ["Jan", "Feb", "Mar", "Total", "heating", "cooling", "neither"]);
    let all = |row: usize| rows[row].1[6];
    assert_eq!([0, 1, 2, 3].map(all), [744, 672, 84, 1500]);
    assert!(rows[3].1.iter().all(|count| *count > 0), "{rows:?}");
    assert_eq!(all(4) + all(5) + all(6), 1500);
}

#[test]
fn every_column_is_explained() {
    for (basis, named) in
        [(Basis::Air, "the air temperature"), (Basis::Operative, "the operative temperature")]
    {
        let head = Head { temp_setpnt_basis: basis, ..house_p() };
        let (folder, _) = with_book("why_legend", &head, &changing(10, 1.0));
        let said = folder.call(&["why", "p.book"]).done();
        let legend = said.rsplit("\n\n").next().unwrap();
        for name in ["no choice", "not warm", "warm air", "no use", "too little", "enough"] {
            let line = legend.lines().find(|line| line.starts_with(name));
            assert!(
                line.is_some_and(|line| line[name.len()..].trim().len() > 20),
                "{name}: {said}"
            );
        }
        let note = format!(
            "An hour has the first of these that holds, by {named} at its end without the\n"
        );
        assert!(legend.contains(&note), "{said}");
        assert!(said.lines().all(|line| line.chars().count() <= 102), "{said}");
    }
}

#[test]
fn steps_count_in_the_month_in_which_they_begin() {
    // Of steps of 14.88 hours January has 50, since the next begins with February, but for rounding.
    let (folder, book) = with_book("why_steps", &house_p(), &changing(700, 14.88));
    let begins: f64 = (0..50).map(|_| 14.88).sum();
    assert!(begins != 744.0 && (begins - 744.0).abs() < 1e-9);
    let rows = must_count(&folder, &book, "reasons for the air change rate of 700 steps");
    let named = |name: &str| rows.iter().find(|row| row.0 == name).map(|row| row.1[6]);
    assert_eq!(named("Jan"), Some(50), "{rows:?}");
    assert_eq!(named("later"), Some(700 - 589), "{rows:?}");
    assert_eq!(rows.len(), 12 + 1 + 4);
}

#[test]
fn one_hour_and_none() {
    let (folder, book) = with_book("why_one", &house_p(), &changing(1, 1.0));
    must_count(&folder, &book, "reasons for the air change rate of 1 hour");
    folder.write("p.book", &book.bytes()[..HEAD]);
    assert_eq!(folder.call(&["why", "p.book"]).done(), "p.book: no hours held\n");
    let words = "hem-year: p.book: has 0 hours, numbered from 1: there is no hour 1\n";
    folder.call(&["why", "p.book", "1"]).failed(2, words);
}

#[test]
fn a_book_of_three_versions() {
    let year = varied(60, 1.0);
    let (folder, _) = with_limits("why_versions", &year[..20 * HOUR], &["--entry-version=1"]);
    go_on(&folder, &year[..40 * HOUR], &["--entry-version=2"]);
    go_on(&folder, &year, &BOTH);
    let book = Book::take_up(&folder.read("p.book")).unwrap();
    let versions = [0, 20, 40].map(|hour| book.entry(hour).unwrap().version());
    assert_eq!(versions, [1, 2, 3]);
    must_count(&folder, &book, "reasons for the air change rate of 60 hours");
}

// ---- what is refused ----

#[test]
fn an_unfinished_hour_is_not_counted() {
    let (folder, book) = with_year("why_unfinished", &varied(10, 1.0));
    let whole = book.bytes().to_vec();
    folder.write("p.book", &whole[..HEAD + 7 * ENTRY]);
    let without = folder.call(&["why", "p.book"]).done();
    let seventh = folder.call(&["why", "p.book", "7"]).done();
    for (rest, told) in [(1, "byte is"), (4, "4 bytes are"), (215, "215 bytes are")] {
        folder.write("p.book", &whole[..HEAD + 7 * ENTRY + rest]);
        let said = folder.call(&["why", "p.book"]).done();
        let note = format!("The last {told} an unfinished hour, which is not counted.\n");
        assert_eq!(said, without.replacen('\n', &format!("\n{note}"), 1));
        assert_eq!(folder.call(&["why", "p.book", "7"]).done(), seventh);
        let words = "hem-year: p.book: has 7 hours, numbered from 1: there is no hour 8\n";
        folder.call(&["why", "p.book", "8"]).failed(2, words);
    }
}

#[test]
fn hours_that_are_not_held() {
    let (folder, _) = with_year("why_not_held", &varied(5, 1.0));
    for number in ["0", "6", "18446744073709551615"] {
        let words = format!("p.book: has 5 hours, numbered from 1: there is no hour {number}\n");
        let answer = folder.call(&["why", "p.book", number]);
        assert!(answer.0.stdout.is_empty());
        answer.failed(2, &format!("hem-year: {words}"));
    }
    for number in 1..=5 {
        let name = format!("Hour {number} (1 Jan {:02}:00): ", number - 1);
        let said = folder.call(&["why", "p.book", &number.to_string()]).done();
        assert!(said.starts_with(&name) && said.ends_with(".\n"), "{said}");
        assert_eq!(said.lines().count(), 1, "{said}");
    }
}

#[test]
fn a_damaged_book_is_refused() {
    let (folder, book) = with_year("why_damaged", &varied(5, 1.0));
    let mut bytes = book.bytes().to_vec();
    bytes[HEAD + 3 * ENTRY + 160] ^= 1;
    folder.write("p.book", &bytes);
    let words = "hem-year: p.book: hour 4 (1 Jan 03:00): its stored heating is not what the hour gives \
                 (refusal 18); its first 3 hours are good, and `hem-year cut p.book 3 NEW` keeps them; the \
                 file is left as it is\n";
    for hour in [&[][..], &["1"], &["9"]] {
        let answer = folder.call(&[&["why", "p.book"], hour].concat());
        assert!(answer.0.stdout.is_empty());
        answer.failed(1, words);
    }
    assert!(folder.read("p.book") == bytes);
    folder.write("p.book", &bytes[..100]);
    let words = "p.book: the head ends early: 96 bytes of 176 are there (refusal 1)";
    folder.call(&["why", "p.book", "1"]).failed(1, words);
    folder.call(&["why", "none.book", "1"]).failed(2, "none.book: cannot be read: ");
}
