//! Houses and hours as text and back.
mod common;
#[path = "common/generated.rs"]
mod generated;

use common::Folder;
use generated::Chance;
use hem_zone::text::*;
use hem_zone::{AirChangesPerHour, Conditions, Head, Zone};
use std::path::Path;

fn bytes_of(hours: &[Conditions]) -> Vec<u8> {
    hours.iter().flat_map(Conditions::to_bytes).collect()
}

/// Hours by chance with rates of every kind: fixed ones, two, and two that are one.
fn hours_with_rates(chance: &mut Chance, head: &Head, count: usize) -> Vec<Conditions> {
    let hours = chance.hours(head, count).into_iter();
    hours
        .map(|hour| match chance.below(3) {
            0 => hour.with_rate_twice(),
            _ => hour,
        })
        .collect()
}

#[track_caller]
fn house_of(text: &str) -> (Head, Plan) {
    let mut faults = Faults::new();
    let house = read_house("h.toml", text, &mut faults);
    assert!(faults.is_empty(), "{faults}{text}");
    (house.head.unwrap(), house.plan.unwrap())
}

#[track_caller]
fn hours_of(text: &str, plan: Option<&Plan>) -> Vec<Conditions> {
    let mut faults = Faults::new();
    let hours = read_hours("h.csv", text.as_bytes(), plan, &mut faults);
    assert!(faults.is_empty(), "{faults}{text}");
    hours.unwrap()
}

#[test]
fn a_thousand_houses_and_years_come_back_from_text() {
    let mut chance = Chance(1);
    for _ in 0..1000 {
        let head = chance.head();
        assert_eq!(Head::from_bytes(&head.to_bytes()).unwrap().to_bytes(), head.to_bytes());
        let plan = Plan::with_names(&head, chance.names(head.elements.len()));
        let text = write_house(&head, &plan);
        let (read, read_plan) = house_of(&text);
        assert_eq!(read.to_bytes(), head.to_bytes(), "{text}");
        assert_eq!(write_house(&read, &read_plan), text);

        let count = 1 + chance.below(6) as usize;
        let hours = hours_with_rates(&mut chance, &head, count);
        let csv = write_hours(&hours, &read_plan, 1);
        for plan in [Some(&read_plan), None] {
            assert_eq!(bytes_of(&hours_of(&csv, plan)), bytes_of(&hours), "{csv}");
        }
        assert_eq!(write_hours(&hours_of(&csv, Some(&read_plan)), &read_plan, 1), csv);

        // The same hours with what stays the same in the house file.
        let (short_plan, short) = compact(&hours, &plan);
        let (read, short_plan) = house_of(&write_house(&head, &short_plan));
        assert_eq!(read.to_bytes(), head.to_bytes());
        assert_eq!(bytes_of(&hours_of(&short, Some(&short_plan))), bytes_of(&hours), "{short}");
    }
}

#[test]
fn conditions_come_back_from_their_bytes() {
    let mut chance = Chance(2);
    for _ in 0..300 {
        let head = chance.head();
        let zone = Zone::new(&head).unwrap();
        let hour = chance.hour(&head).to_bytes();
        assert_eq!(Conditions::from_bytes(&zone, &hour).unwrap().to_bytes(), hour);
        assert_eq!(Conditions::from_bytes(&zone, &hour[1..]).unwrap_err().number(), 7);
        let mut code = hour.clone();
        code[96] = 2;
        assert_eq!(Conditions::from_bytes(&zone, &code).unwrap_err().number(), 8);
        let mut length = hour.clone();
        length[..8].copy_from_slice(&f64::NAN.to_be_bytes());
        assert_eq!(Conditions::from_bytes(&zone, &length).unwrap_err().number(), 9);
    }
    assert_eq!(Head::from_bytes(&[0; 3]).unwrap_err().number(), 1);
}

/// Through the program: bytes, text, bytes, text.
#[test]
fn the_program_gives_the_bytes_back() {
    let folder = Folder::new("text_round");
    let mut chance = Chance(3);
    for _ in 0..25 {
        let head = chance.head();
        let count = 1 + chance.below(4) as usize;
        let hours = hours_with_rates(&mut chance, &head, count);
        folder.write("a.head", &head.to_bytes());
        folder.write("a.year", &bytes_of(&hours));
        let text = folder.call(&["show", "a.head"]).done();
        folder.write("b.toml", text.as_bytes());
        folder.call(&["house", "b.toml", "b.head"]).done();
        assert_eq!(folder.read("b.head"), head.to_bytes(), "{text}");
        assert_eq!(folder.call(&["show", "b.head"]).done(), text);

        // By the house file, by the head, and by the table alone.
        let csv = folder.call(&["show", "a.year", "--head", "b.toml"]).done();
        folder.write("b.csv", csv.as_bytes());
        for house in [&["--head", "b.toml"][..], &["--head=a.head"], &[]] {
            folder.call(&[&["hours", "b.csv", "b.year"], house].concat()).done();
            assert_eq!(folder.read("b.year"), bytes_of(&hours), "{csv}");
            folder.remove("b.year");
        }
        for (place, hour) in hours.iter().enumerate() {
            let number = (place + 1).to_string();
            let one =
                folder.call(&["show", "a.year", "--head", "b.toml", "--hour", &number]).done();
            folder.write("one.csv", one.as_bytes());
            folder.call(&["hours", "one.csv", "one.year", "--head", "b.toml"]).done();
            assert_eq!(folder.read("one.year"), hour.to_bytes());
        }
        folder.remove("b.head");
    }
}

const EXAMPLES: &str = concat!(env!("CARGO_MANIFEST_DIR"), "/../examples");

#[test]
fn the_sample_is_text() {
    let folder = Folder::new("text_sample");
    folder.call(&["sample", "."]).done();
    for name in ["terrace.toml", "terrace.csv"] {
        let example = std::fs::read(Path::new(EXAMPLES).join(name)).unwrap();
        assert!(folder.read(name) == example, "examples/{name} is what sample writes");
    }
    folder.call(&["house", "terrace.toml", "a.head"]).done();
    folder.call(&["hours", "terrace.csv", "a.year", "--head", "terrace.toml"]).done();
    assert!(folder.read("a.head") == folder.read("terrace.head"));
    assert!(folder.read("a.year") == folder.read("terrace.year"));
    let praise = folder.call(&["check", "terrace.toml", "terrace.csv"]).done();
    assert!(praise.contains("no faults"), "{praise}");

    folder.call(&["run", "terrace.toml", "terrace.csv", "t.book"]).done();
    let again = folder.call(&["run", "terrace.head", "terrace.year", "t.book"]).done();
    assert!(again.contains("8,760 hours were held (8,760 of version 2), 0 appended"), "{again}");
    let table = folder.call(&["show", "t.book", "--hours", "--head", "terrace.toml"]).done();
    folder.write("b.csv", table.as_bytes());
    folder.call(&["hours", "b.csv", "b.year", "--head=terrace.toml"]).done();
    assert!(folder.read("b.year") == folder.read("terrace.year"));
}

#[test]
fn an_interrupted_sample_is_completed() {
    let folder = Folder::new("text_half");
    folder.call(&["sample", "."]).done();
    let names = ["terrace.csv", "terrace.epw", "terrace.head", "terrace.toml", "terrace.year"];
    assert_eq!(folder.names(), names);
    let whole = names.map(|name| folder.read(name));
    for name in names {
        folder.remove(name);
        folder.call(&["sample", "."]).done();
    }
    assert!(names.map(|name| folder.read(name)) == whole);
    folder.remove("terrace.head");
    folder.write("terrace.year", b"mine");
    folder.call(&["sample", "."]).failed(2, "exists already and is not overwritten");
    assert_eq!(folder.names(), ["terrace.csv", "terrace.epw", "terrace.toml", "terrace.year"]);
    assert_eq!(folder.read("terrace.year"), b"mine");
}

#[test]
fn a_book_is_shown() {
    let folder = Folder::with_house_p("text_book", 3);
    folder.run().done();
    let text = folder.call(&["show", "p.book"]).done();
    assert!(text.starts_with("# A book of 3 hours begins with this head.\n"), "{text}");
    folder.write("q.toml", text.as_bytes());
    folder.call(&["house", "q.toml", "q.head"]).done();
    assert_eq!(folder.read("q.head"), folder.read("p.head"));
    let hour = folder.call(&["show", "p.book", "--hour", "2"]).done();
    for words in ["\n2,1,20,", "hour 2 (1 Jan 01:00)", "# space_heat_demand = 0.144 kWh"] {
        assert!(hour.contains(words), "{words} in {hour}");
    }
    folder.write("one.csv", hour.as_bytes());
    folder.call(&["hours", "one.csv", "one.year", "--head", "p.head"]).done();
    assert_eq!(folder.read("one.year"), &folder.read("p.year")[154..308]);

    folder.call(&["show", "p.book", "--hour", "4"]).failed(2, "has 3 hours, numbered from 1");
    folder.call(&["show", "p.year", "--hour", "0"]).failed(2, "there is no hour 0");
    folder.call(&["show", "p.head", "--hours"]).failed(2, "is a head, which has no hours");
    folder.call(&["show", "q.toml"]).failed(2, "is text already");
    folder.write("cut.head", &folder.read("p.head")[..100]);
    folder.call(&["show", "cut.head"]).failed(1, "the head ends early");
    folder.write("odd", &[7; 300]);
    folder.call(&["show", "odd"]).failed(2, "is neither a head, nor a book, nor conditions");
    folder.write("empty", b"");
    folder.call(&["show", "empty"]).failed(1, "(refusal 1)");
    let mut chance = Chance(9);
    let other = std::iter::repeat_with(|| chance.head()).find(|h| h.elements.len() > 1).unwrap();
    folder.write("other.head", &other.to_bytes());
    folder.call(&["show", "p.book", "--head", "other.head"]).failed(2, "has other elements");
}

/// README.md has every name that a house file and a table of hours can have.
#[test]
fn all_names_are_documented() {
    let document = include_str!("../README.md");
    let mut chance = Chance(4);
    let heads = std::iter::repeat_with(|| chance.head()).take(50).collect::<Vec<_>>();
    let mut names = std::collections::BTreeSet::new();
    for head in &heads {
        let plan = Plan::of_head(head);
        for line in write_house(head, &plan).lines().filter(|line| !line.starts_with('#')) {
            let key = line.split(" = ").next().unwrap();
            names.insert(key.trim_start_matches("first_hour.").to_string());
        }
        // With a fixed rate, so that it has its column too.
        let ach = AirChangesPerHour::Cooling { ach_cooling: 0.5 };
        let hour = Conditions { ach, ..Chance(5).hour(head) };
        let csv = write_hours(&[hour], &plan, 1);
        let heading = csv.lines().next().unwrap().to_string();
        names.extend(heading.split(',').map(|name| name.rsplit('.').next().unwrap().to_string()));
    }
    names.retain(|name| !name.is_empty() && !name.starts_with("[element."));
    assert_eq!(names.len(), 8 + 11 + 12 + 4 + 6 + 1, "{names:?}");
    for name in names {
        let (own, of_element) = (format!("`{name}`"), format!("`NAME.{name}`"));
        assert!(document.contains(&own) || document.contains(&of_element), "{name}");
    }
}
