//! hem-year report of hours with the limits of a plant, held against the book itself.
mod common;

use common::hours::varied;
use common::plant::*;
use common::table::column;
use common::HOUR;
use hem_zone::samples::hour_p;

/// The words for a length of time.
fn time(hours: f64) -> String {
    match hours.to_string() {
        number if number == "1" => "1 hour".to_string(),
        number => format!("{number} hours"),
    }
}

#[test]
fn a_report_says_how_long_each_limit_held_and_what_that_meant() {
    for length in [1.0, 0.75] {
        let (folder, book) = with_limits("held", &varied(60, length), &BOTH);
        let report = folder.call(&["report", "p.book"]).done();
        let all =
            format!("\nThe plant, in {} with limits\nHeating    at most ", time(60.0 * length));
        assert!(report.contains(&all), "{report}");
        let by = |a: &usize, b: &usize| {
            let operative = |place: usize| book.entry(place).unwrap().temp_operative();
            operative(*a).total_cmp(&operative(*b))
        };
        for (name, limit, told, sign, worst) in [
            ("Heating", HEATING, "1,500 W", 1.0, "lowest"),
            ("Cooling", COOLING, "250.5 W", -1.0, "highest"),
        ] {
            let expected = expected(&book, limit, sign);
            let places = expected.held.iter().map(|(place, _)| *place);
            let count = places.len();
            assert!(count > 3 && count < 40, "{name} {count}");
            let place = match worst {
                "lowest" => places.min_by(by).unwrap(),
                _ => places.rev().max_by(by).unwrap(),
            };
            let line = format!(
                "{name}    at most {told}: {:.1} kWh delivered, {:.1} kWh unmet\n           \
                 held in {}, {worst} operative temperature in them {:.1} °C ({})\n",
                expected.delivered,
                expected.unmet(),
                time(count as f64 * length),
                book.entry(place).unwrap().temp_operative(),
                date(place, length)
            );
            assert!(report.contains(&line), "{line} in {report}");
        }
        assert!(report.contains("\nDemand is told uncut: "), "{report}");
    }
}

#[test]
fn what_was_delivered_goes_before_what_was_asked_for() {
    let (folder, book) = with_limits("totals", &varied(60, 1.0), &BOTH);
    let report = folder.call(&["report", "p.book", "--svg", "x.svg"]).done();
    let svg = folder.text("x.svg");
    for (name, limit, sign) in [("Heating", HEATING, 1.0), ("Cooling", COOLING, -1.0)] {
        let Expected { asked, delivered, .. } = expected(&book, limit, sign);
        assert!(asked - delivered > 0.1, "{name}: {asked} {delivered}");
        let energy = format!("{delivered:.1} kWh delivered ({:.1} kWh/m²)", delivered / 36.0);
        let line = report.lines().find(|l| l.starts_with(&format!("{name}  "))).unwrap();
        let told = line.trim_start_matches(name).trim_start();
        assert!(told.starts_with(&format!("{energy}, {asked:.1} kWh asked for in ")), "{line}");
        let name = name.to_lowercase();
        assert!(svg.contains(&format!("   ·   {name} {energy}")), "{energy}");
        assert!(
            report.contains(&format!("\nHighest {name} asked for         kW   ext")),
            "{report}"
        );
    }
    // A limit that never holds leaves the line of a book without limits.
    let totals = |words: &[&str]| {
        let (folder, _) = with_limits("totals", &varied(60, 1.0), words);
        let report = folder.call(&["report", "p.book"]).done();
        let totals: Vec<String> = report.lines().skip(3).take(4).map(String::from).collect();
        totals
    };
    let free = totals(&[]);
    assert!(free[0].starts_with("Heating ") && free[1].starts_with("Cooling "), "{free:?}");
    assert_eq!(totals(&["--heating-limit=1e6"]), free);
}

#[test]
fn months_account_for_every_hour_in_which_a_limit_held() {
    let year = varied(1500, 1.0);
    let (folder, book) = with_limits("months", &year, &BOTH);
    let report = folder.call(&["report", "p.book"]).done();
    let heading: Vec<Vec<&str>> = report
        .lines()
        .skip_while(|line| !line.contains("Windows  External"))
        .take(3)
        .map(|line| line.split_whitespace().collect())
        .collect();
    let first = "Heating highest Cooling highest Windows External Operative > 26 °C > 28 °C \
                 Heating Heating Cooling Cooling";
    assert_eq!(heading[0], first.split(' ').collect::<Vec<_>>());
    let second = "delivered asked for delivered asked for limit held unmet limit held unmet";
    assert_eq!(heading[1], second.split(' ').collect::<Vec<_>>());
    for (name, hours) in [("Jan", 0..744), ("Feb", 744..1416), ("Mar", 1416..1500)] {
        let line = report.lines().find(|line| line.starts_with(&format!("{name}  "))).unwrap();
        let cells: Vec<&str> = line.split_whitespace().skip(1).collect();
        for (limit, sign, energy, held) in [(HEATING, 1.0, 0, 9), (COOLING, -1.0, 2, 11)] {
            let (mut delivered, mut count, mut unmet) = (0.0, 0, 0.0);
            for entry in book.entries().skip(hours.start).take(hours.len()) {
                let (kwh, power) = asked(&entry);
                let kwh = (sign * kwh).max(0.0);
                let most = if sign * power > limit { limit / 1000.0 } else { kwh };
                count += usize::from(sign * power > limit);
                (delivered, unmet) = (delivered + most, unmet + kwh - most);
            }
            assert!(count > 0 && unmet > 0.1, "{name}");
            assert_eq!(cells[energy], format!("{delivered:.1}"), "{line}");
            assert_eq!(cells[held..held + 2], [format!("{count}.0"), format!("{unmet:.1}")]);
        }
    }
    // Only the limit that held has columns.
    let (folder, _) = with_limits("months", &year[..50 * HOUR], &BOTH[..1]);
    let report = folder.call(&["report", "p.book"]).done();
    let heading = report.lines().find(|line| line.contains("Windows  External")).unwrap();
    assert!(heading.ends_with("> 28 °C     Heating   Heating"), "{heading}");
}

#[test]
fn a_report_lists_the_hours_that_left_most_unmet() {
    let (folder, book) = with_limits("list", &varied(60, 1.0), &BOTH);
    let report = folder.call(&["report", "p.book"]).done();
    for (name, limit, sign) in [("heating", HEATING, 1.0), ("cooling", COOLING, -1.0)] {
        let mut held = expected(&book, limit, sign).held;
        assert!(held.len() > 10, "the list is cut");
        held.sort_by(|a, b| b.1.total_cmp(&a.1));
        let lines: Vec<&str> = report
            .lines()
            .skip_while(|line| !line.starts_with(&format!("Most {name} unmet ")))
            .skip(1)
            .take_while(|line| !line.is_empty())
            .collect();
        assert_eq!(lines.len(), 11, "{report}");
        for (row, (line, (place, unmet))) in lines.iter().zip(&held).take(10).enumerate() {
            let entry = book.entry(*place).unwrap();
            let (_, power) = asked(&entry);
            let conditions = entry.conditions();
            let setpoint = match name {
                "heating" => conditions.temp_setpnt_heat,
                _ => conditions.temp_setpnt_cool,
            };
            let words = [
                format!("{:2}  hour {:4}", row + 1, place + 1),
                date(*place, 1.0),
                format!("{:.2}", sign * power / 1000.0),
                format!("{:.2}", limit / 1000.0),
                format!("{unmet:.2}"),
                format!("{setpoint:.1} °C"),
                format!("{:.1} °C", entry.temp_operative()),
            ];
            let mut rest = *line;
            for word in words {
                let at = rest.find(&word).unwrap_or_else(|| panic!("{word} in {line}"));
                rest = &rest[at + word.len()..];
            }
        }
        let more = held.len() - 10;
        let words = format!("    and {more} more; the column limit_held of --csv has them all");
        assert_eq!(lines[10], words);
    }
}

#[test]
fn a_power_at_its_limit_is_not_held_and_one_beyond_it_is() {
    // House P asks for 144 W.
    let hour = hour_p(21.0, 24.0).to_bytes();
    for (limit, told) in [
        (144.0, "144 W: 0.1 kWh delivered, 0.0 kWh unmet\n           never held\n"),
        (
            144.0_f64.next_up(),
            "144.00000000000003 W: 0.1 kWh delivered, 0.0 kWh unmet\n           never held\n",
        ),
        (
            144.0_f64.next_down(),
            "143.99999999999997 W: 0.1 kWh delivered, 0.0 kWh unmet\n           held in 1 hour, lowest \
             operative temperature in it ",
        ),
    ] {
        let (folder, _) = with_limits("edge", &hour, &[&format!("--heating-limit={limit}")]);
        let report = folder.call(&["report", "p.book", "--csv", "x.csv"]).done();
        assert!(report.contains(&format!("\nHeating    at most {told}")), "{report}");
        let never = "\nCooling    at most 10,000,000 W: 0.0 kWh delivered, 0.0 kWh unmet\n           \
                     never held\n";
        assert!(report.contains(never), "{report}");
        let held = limit < 144.0;
        assert_eq!(report.contains("\nMost heating unmet  "), held, "{report}");
        assert_eq!(report.contains("Demand is told uncut"), held, "{report}");
        let csv = folder.text("x.csv");
        assert_eq!(column(&csv, "delivered_W"), [limit.min(144.0).to_string()]);
        assert_eq!(column(&csv, "limit_held"), [if held { "heating" } else { "" }]);
    }
}

#[test]
fn books_without_limits_say_nothing_of_a_plant() {
    let outputs = ["--csv", "x.csv", "--svg", "x.svg"];
    for version in ["1", "2"] {
        let (folder, _) = with_limits("none", &varied(20, 1.0), &["--entry-version", version]);
        let report = folder.call(&[&["report", "p.book"], &outputs[..]].concat()).done();
        let shown = folder.call(&["show", "p.book", "--hour", "3"]).done();
        for text in [report, folder.text("x.csv"), folder.text("x.svg"), shown] {
            for word in ["limit", "plant", "delivered", "asked", "unmet", "uncut"] {
                assert!(!text.contains(word), "{word} in {text}");
            }
        }
    }
}

#[test]
fn limits_that_change_are_told_from_the_least_to_the_greatest() {
    let year = varied(20, 1.0);
    let (folder, _) = with_limits("change", &year[..10 * HOUR], &BOTH);
    go_on(&folder, &year, &["--heating-limit=900"]);
    let report = folder.call(&["report", "p.book"]).done();
    assert!(report.contains("\nHeating    at most 900 to 1,500 W: "), "{report}");
    assert!(report.contains("\nCooling    at most 250.5 to 10,000,000 W: "), "{report}");
}
