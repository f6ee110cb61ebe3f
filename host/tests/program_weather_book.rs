//! A book of hours that hem-year weather has made: it holds the weather bit for bit in every entry version, and what
//! came with the versions goes on as before: shares of a ceiling, limits of a plant, windows and questions.
mod common;
#[path = "common/epw.rs"]
mod epw;

use common::Folder;
use epw::{file, line};
use hem_zone::{first_above, weather_lines, Book, Entry, HeldLimit, Weather};

/// Two hot days, a mild and a cold one.
const DAYS: [[&str; 3]; 4] =
    [["45", "0", "300"], ["45.30", "10", "300"], ["17.25", "0", "60.5"], ["-32", "0", "0"]];
const OPTIONS: [&str; 3] = [
    "--dry-bulb=temp_ext_air,avg_air_supply_temp,temp_ext",
    "--diffuse=i_sol_dif=0.5",
    "--head=terrace.toml",
];
/// The entry versions, and a plant that is too small for these days.
const VERSIONS: [&[&str]; 3] = [
    &["--entry-version", "1"],
    &["--entry-version", "2"],
    &["--heating-limit", "1500", "--cooling-limit", "300"],
];

/// The sample house, four days of its July, and these days as a weather file: the hours in that weather as a
/// table and as bytes.
fn with_weather(name: &str) -> Folder {
    let folder = Folder::new(name);
    folder.call(&["sample", "."]).done();
    let table = folder.text("terrace.csv");
    let lines = table.lines().enumerate().filter(|(place, _)| *place == 0 || *place > 4800);
    let july: String = lines.take(97).map(|(_, line)| line.to_string() + "\n").collect();
    folder.write("july.csv", july.as_bytes());
    let hours = DAYS.iter().flat_map(|[a, b, c]| vec![line(a, b, c) + "\r\n"; 24]);
    folder.write("wild.epw", &file(hours.collect::<String>()));
    folder.call(&[&["weather", "wild.epw", "july.csv", "wild.csv"][..], &OPTIONS].concat()).done();
    folder.call(&["hours", "wild.csv", "wild.year", "--head", "terrace.toml"]).done();
    folder
}

fn book(folder: &Folder, version: usize) -> Book {
    let words = ["run", "terrace.toml", "wild.csv", "wild.book"];
    let _ = std::fs::remove_file(folder.path("wild.book"));
    folder.call(&[&words[..], VERSIONS[version - 1]].concat()).done();
    Book::take_up(&folder.read("wild.book")).unwrap()
}

#[test]
fn every_version_holds_the_weather_of_the_file() {
    let folder = with_weather("weather_book");
    let lines: Vec<Weather> = weather_lines(&folder.read("wild.epw")).map(Result::unwrap).collect();
    let year = folder.read("wild.year");
    for version in 1..=3 {
        let book = book(&folder, version);
        assert_eq!(book.hours(), 96);
        let size = year.len() / 96;
        for ((entry, weather), bytes) in book.entries().zip(&lines).zip(year.chunks(size)) {
            assert_eq!((entry.version(), entry.conditions_bytes()), (version as u64, bytes));
            let hour = entry.conditions();
            let [front_wall, floor] = [&hour.elements[0], &hour.elements[3]];
            for number in [hour.temp_ext_air, hour.avg_air_supply_temp, front_wall.temp_ext] {
                assert_eq!(number.to_bits(), weather.dry_bulb.to_bits());
            }
            assert_eq!(front_wall.i_sol_dif, 0.5 * weather.diffuse_horizontal);
            // The ground has its own temperature, in a column of its own.
            assert_ne!(floor.temp_ext, weather.dry_bulb);
        }
    }
}

fn cooled(entry: &Entry) -> bool {
    entry.demand().space_cool_demand < 0.0
}

#[test]
fn shares_and_limits_go_on_as_before() {
    let folder = with_weather("weather_versions");
    let [one, two, three] = [1, 2, 3].map(|version| book(&folder, version));
    // The first hour that is cooled asks for the same and leaves other temperatures: its share is another.
    let first = two.entries().position(|entry| cooled(&entry)).unwrap();
    let demand = |book: &Book| book.entry(first).unwrap().demand();
    let air = |book: &Book, place| book.entry(place).unwrap().state().temp_internal_air();
    assert_eq!(demand(&one), demand(&two));
    assert_ne!(air(&one, first), air(&two, first));
    assert!((0..first).all(|place| air(&one, place) == air(&two, place)));
    // On the hot days the plant is too small for cooling, on the cold one for heating.
    let held = |limit: HeldLimit| {
        let hours = three.entries().enumerate();
        hours
            .filter(|(_, e)| e.held_limit() == Some(limit))
            .map(|(place, _)| place)
            .collect::<Vec<_>>()
    };
    let (heating, cooling) = (held(HeldLimit::Heating), held(HeldLimit::Cooling));
    assert!(!heating.is_empty() && heating.iter().all(|place| *place >= 72), "{heating:?}");
    assert!(!cooling.is_empty() && cooling.iter().all(|place| *place < 72), "{cooling:?}");
    let power = |entry: Entry| (-300.0..=1500.0).contains(&entry.delivered());
    assert!(three.entries().all(power));
}

#[test]
fn windows_and_questions_know_the_weather() {
    let folder = with_weather("weather_questions");
    book(&folder, 2);
    let why = |hour: &str| folder.call(&["why", "wild.book", hour]).done();
    assert!(why("12").contains("not above the 45 °C of the supplied air"), "{}", why("12"));
    assert!(why("60").contains("the windows are fully open, at 3 air"), "{}", why("60"));
    assert!(why("90").contains("not above the ventilation setpoint of 22.5 °C"), "{}", why("90"));
    // With so small a plant it gets warm, on the hot days, and then the windows are too little.
    let book = book(&folder, 3);
    assert!(why("60").contains("the windows stay closed"), "{}", why("60"));
    let place = first_above(book.bytes(), 28.0).unwrap().unwrap();
    assert!(place < 48, "{place}");
    let warm = folder.call(&["warm", "wild.book", "--above", "28"]).done();
    assert!(warm.contains(&format!("Above 28 °C: first in hour {} ", place + 1)), "{warm}");
}
