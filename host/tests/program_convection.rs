//! hem-year report: the sums of convection, held against the table and against the hours themselves.
mod common;
mod sample;

use common::hours::{varied, with_year};
use common::table::{column, table};
use common::Folder;
use hem_zone::{Book, Entry, Rule, ENTRY_VERSION_2};
use sample::{run, sample};

const TITLES: [&str; 4] = ["Horizontal", "Upwards", "Downwards", "Together"];
const COLUMNS: [&str; 4] = [
    "internal_boundary.fabric_int_air_convective_horizontal",
    "internal_boundary.fabric_int_air_convective_upwards",
    "internal_boundary.fabric_int_air_convective_downwards",
    "internal_boundary.fabric_int_air_convective",
];

/// What the report says, and the table with the heat balance.
fn report(folder: &Folder) -> (String, String) {
    let text = folder.call(&["report", "t.book", "--csv", "x.csv", "--balance"]).done();
    (text, folder.text("x.csv"))
}

/// The two blocks of the section: the sums, and the months.
fn section(report: &str) -> [Vec<&str>; 2] {
    let heading =
        "\n\nConvection: heat from the air into the inner surfaces, by the direction in which it \
                   flowed\n";
    let (_, section) = report.split_once(heading).unwrap_or_else(|| panic!("{report}"));
    let mut lines = section.lines();
    let mut block = || lines.by_ref().take_while(|line| !line.is_empty()).collect();
    [block(), block()]
}

/// The kWh and the words of each sum.
fn sums(report: &str) -> [(String, String); 4] {
    let [lines, _] = section(report);
    assert_eq!(lines.len(), 4, "{report}");
    std::array::from_fn(|place| {
        let rest = lines[place].strip_prefix(TITLES[place]).expect(TITLES[place]);
        let (heat, words) = rest.split_once(" kWh  ").unwrap();
        (heat.trim().to_string(), words.to_string())
    })
}

/// The kWh of each sum.
fn heats(report: &str) -> [String; 4] {
    sums(report).map(|(heat, _)| heat)
}

fn numbers(csv: &str, name: &str) -> Vec<f64> {
    column(csv, name).into_iter().map(|cell| cell.parse().unwrap()).collect()
}

/// The kWh of each hour by a column in watts.
fn energies(csv: &str, name: &str) -> Vec<f64> {
    let hours = numbers(csv, name).into_iter().zip(numbers(csv, "delta_t_h"));
    hours.map(|(power, length)| power * length / 1000.0).collect()
}

fn told(energy: f64) -> String {
    format!("{energy:.1}")
}

// ---- the table ----

#[test]
fn the_heat_balance_stands_in_the_order_of_the_interface() {
    let (folder, _) = with_year("convection_order", &varied(2, 1.0));
    folder.call(&["report", "p.book", "--csv", "x.csv", "--balance"]).done();
    let text = folder.text("x.csv");
    let (names, _) = table(&text);
    let behind = names.iter().position(|name| *name == "temp_operative").unwrap() + 1;
    let of = |part: &str, values: &str| -> Vec<String> {
        values.split_whitespace().map(|value| format!("{part}.{value}")).collect()
    };
    let air_node = "solar_gains internal_gains heating_or_cooling_system_gains \
                    energy_to_change_internal_temperature thermal_bridges infiltration_ventilation \
                    fabric_heat_loss";
    let internal =
        "fabric_int_air_convective fabric_int_sol fabric_int_int_gains fabric_int_heat_cool \
                    fabric_int_air_convective_horizontal fabric_int_air_convective_upwards \
                    fabric_int_air_convective_downwards";
    let external = "solar_gains internal_gains heating_or_cooling_system_gains thermal_bridges \
                    infiltration_ventilation fabric_ext_air_convective fabric_ext_air_radiative \
                    fabric_ext_sol fabric_ext_sky opaque_fabric_ext transparent_fabric_ext \
                    ground_fabric_ext ztc_fabric_ext ztu_fabric_ext";
    let expected = [
        of("air_node", air_node),
        of("internal_boundary", internal),
        of("external_boundary", external),
    ];
    assert_eq!(names[behind..], expected.concat());
}

// ---- the sums ----

#[test]
fn the_sums_are_those_of_the_table() {
    let folder = sample("convection_sums", 500, |i| [0.5, 1.0, 2.25][i % 3]);
    run(&folder, &[]);
    let (report, csv) = report(&folder);
    let expected = COLUMNS.map(|name| energies(&csv, name).iter().sum::<f64>());
    assert_eq!(heats(&report), expected.map(told), "{report}");
    // Lengths count, and no two of the sums are one.
    let without = COLUMNS.map(|name| numbers(&csv, name).iter().sum::<f64>() / 1000.0);
    for place in 0..4 {
        assert!((expected[place] - without[place]).abs() > 0.2, "{expected:?} {without:?}");
        let others = (0..4).filter(|other| *other != place);
        others.for_each(|other| assert!((expected[place] - expected[other]).abs() > 1.0));
    }
    let words = [
        "into 7 walls and windows, less what they gave to the air",
        "into 1 ceiling, less what 1 floor gave to the air",
        "into 1 floor, less what 1 ceiling gave to the air",
        "below 0 the surfaces gave more to the air than they took",
    ];
    assert_eq!(sums(&report).map(|(_, words)| words), words);
}

#[test]
fn the_directions_are_parts_of_the_whole() {
    let folder = sample("convection_parts", 2000, |_| 1.0);
    run(&folder, &[]);
    let (report, csv) = report(&folder);
    let [horizontal, upwards, downwards, total] = COLUMNS.map(|name| numbers(&csv, name));
    for hour in 0..2000 {
        let parts = horizontal[hour] + upwards[hour] + downwards[hour];
        assert!((parts - total[hour]).abs() < 1e-9, "hour {}: {parts}, {}", hour + 1, total[hour]);
    }
    // Heat goes both ways in each direction.
    for part in [horizontal, upwards, downwards] {
        assert!(part.iter().any(|w| *w > 1.0) && part.iter().any(|w| *w < -1.0));
    }
    let [parts @ .., total] = heats(&report).map(|heat| heat.parse::<f64>().unwrap());
    assert!((parts.iter().sum::<f64>() - total).abs() < 0.21, "{report}");
}

/// The sums of a book, kWh, where each hour is calculated by a rule from what was before it.
fn again(book: &Book, rule: fn(&Entry) -> Rule) -> [String; 4] {
    let (zone, mut before) = (book.zone(), book.zone().start_up().unwrap());
    let mut sums = [0.0; 4];
    for entry in book.entries() {
        let conditions = entry.conditions();
        let (_, _, balance) = zone.hour_step(&before, &conditions, rule(&entry)).unwrap();
        let inner = balance.internal_boundary;
        let powers = [
            inner.fabric_int_air_convective_horizontal,
            inner.fabric_int_air_convective_upwards,
            inner.fabric_int_air_convective_downwards,
            inner.fabric_int_air_convective,
        ];
        sums.iter_mut().zip(powers).for_each(|(s, power)| *s += power * conditions.delta_t_h / 1e3);
        before = entry.state();
    }
    sums.map(told)
}

#[test]
fn hours_with_limits_have_the_balance_of_the_limited_power() {
    let folder = sample("convection_limits", 120, |_| 1.0);
    let all = folder.read("t.year");
    folder.write("t.year", &all[..all.len() / 3]);
    run(&folder, &["--entry-version=1"]);
    folder.write("t.year", &all);
    run(&folder, &["--heating-limit=700"]);
    let (limited, csv) = report(&folder);
    assert!(column(&csv, "limit_held").iter().filter(|held| **held == "heating").count() > 10);
    let book = Book::take_up(&folder.read("t.book")).unwrap();
    assert_eq!(heats(&limited), again(&book, |entry| entry.rule()));
    assert_eq!(heats(&limited), COLUMNS.map(|name| told(energies(&csv, name).iter().sum())));
    // The power that is asked for would be another.
    assert_ne!(heats(&limited), again(&book, |_| ENTRY_VERSION_2.into()));
    folder.remove("t.book");
    run(&folder, &[]);
    assert_ne!(heats(&report(&folder).0), heats(&limited));
}

// ---- the months ----

#[test]
fn months_sum_to_the_year() {
    let folder = sample("convection_months", 1500, |_| 1.0);
    run(&folder, &[]);
    let (report, csv) = report(&folder);
    let [_, lines] = section(&report);
    let cells = |line: &str| line.split_whitespace().map(String::from).collect::<Vec<_>>();
    assert_eq!(cells(lines[0]), ["kWh", "Jan", "Feb", "Mar"]);
    assert_eq!(lines.len(), 4, "{report}");
    let times = column(&csv, "time");
    for place in 0..3 {
        let hours = energies(&csv, COLUMNS[place]);
        let month = |number: &str| {
            let hours = hours.iter().zip(&times).filter(|(_, time)| time[5..7] == *number);
            told(hours.map(|(energy, _)| energy).sum())
        };
        let row = cells(lines[place + 1]);
        assert_eq!(row[0], TITLES[place]);
        assert_eq!(row[1..], ["01", "02", "03"].map(month), "{report}");
        let sum: f64 = row[1..].iter().map(|cell| cell.parse::<f64>().unwrap()).sum();
        let year: f64 = heats(&report)[place].parse().unwrap();
        assert!((sum - year).abs() < 0.21, "{report}");
    }
    // All lines are of one length.
    let width = |line: &&str| line.chars().count();
    assert!(lines.iter().map(width).all(|w| w == width(&lines[0])), "{report}");
}

#[test]
fn an_hour_over_the_end_of_a_month_is_shared_out() {
    // 31 days have 20 whole hours of 36.5 and 14 hours of the next.
    let folder = sample("convection_shared", 300, |_| 36.5);
    run(&folder, &[]);
    let (report, csv) = report(&folder);
    let [_, lines] = section(&report);
    let hours = energies(&csv, COLUMNS[0]);
    let january = hours[..20].iter().sum::<f64>() + hours[20] * 14.0 / 36.5;
    let cell = |line: &str, place: usize| line.split_whitespace().nth(place).unwrap().to_string();
    assert_eq!(cell(lines[1], 1), told(january), "{report}");
    // 300 such hours are 10,950: what is past the year is later.
    assert_eq!(cell(lines[0], 13), "later");
    let later = hours[240..].iter().sum::<f64>();
    assert_eq!(cell(lines[1], 13), told(later), "{report}");
}

// ---- other books ----

#[test]
fn a_house_of_one_window_says_that_it_has_no_ceilings_and_floors() {
    let (folder, book) = with_year("convection_p", &varied(60, 0.75));
    let report = folder.call(&["report", "p.book"]).done();
    let [horizontal, upwards, downwards, total] = sums(&report);
    assert_eq!(horizontal.1, "into 1 wall or window, less what it gave to the air");
    assert_eq!(upwards, ("0.0".into(), "no ceilings and no floors".into()));
    assert_eq!(downwards, upwards);
    assert_eq!(horizontal.0, total.0);
    assert_eq!(heats(&report), again(&book, |entry| entry.rule()));
    // There is but one month, which has the sums of all hours.
    let [_, rest] = section(&report);
    assert!(rest[0].starts_with("Hours are named by their beginning"), "{report}");
}

#[test]
fn a_book_without_hours_says_nothing_of_convection() {
    let folder = sample("convection_none", 0, |_| 1.0);
    let words = ["report", "terrace.head", "--csv", "x.csv", "--balance"];
    let report = folder.call(&words).done();
    assert!(report.contains("no hours held"), "{report}");
    assert!(!report.contains("Convection") && !report.contains("kWh"), "{report}");
    assert!(folder.text("x.csv").lines().all(|line| line.starts_with('#')));
}
