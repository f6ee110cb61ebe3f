//! Hours with the limits of a plant in the table, in the drawing and as they are shown.
mod common;

use common::hours::varied;
use common::plant::*;
use common::table::{column, table};
use common::{Folder, HOUR};
use hem_zone::Book;

/// A book of ten hours of each version.
fn three_versions(name: &str) -> (Folder, Book) {
    let year = varied(30, 1.0);
    let (folder, _) = with_limits(name, &year[..10 * HOUR], &["--entry-version=1"]);
    go_on(&folder, &year[..20 * HOUR], &["--entry-version=2"]);
    go_on(&folder, &year, &BOTH);
    let book = Book::take_up(&folder.read("p.book")).unwrap();
    (folder, book)
}

#[test]
fn the_table_has_the_limits_the_power_and_the_rest_of_every_hour() {
    let (folder, book) = three_versions("table");
    folder.call(&["report", "p.book", "--csv", "x.csv", "--balance"]).done();
    let csv = folder.text("x.csv");
    assert!(table(&csv).1.iter().all(|row| row.len() == table(&csv).0.len()));
    let bits = |text: &str| text.parse::<f64>().map(f64::to_bits).ok();
    let cells = |name: &str| column(&csv, name).into_iter().map(bits).collect::<Vec<_>>();
    let gains = cells("air_node.heating_or_cooling_system_gains");
    let unmet = [cells("heating_unmet_kWh"), cells("cooling_unmet_kWh")];
    let mut state = book.zone().start_up().unwrap();
    let mut left = [0, 0];
    for (i, entry) in book.entries().enumerate() {
        let ((kwh, power), limited) = (asked(&entry), i >= 20);
        assert_eq!(cells("heating_limit_W")[i], limited.then_some(HEATING.to_bits()));
        assert_eq!(cells("cooling_limit_W")[i], limited.then_some(COOLING.to_bits()));
        let delivered = if limited { power.clamp(-COOLING, HEATING) } else { power };
        assert_eq!(cells("delivered_W")[i], Some(delivered.to_bits()));
        let mut held = "";
        for (side, (limit, sign)) in [(HEATING, 1.0), (COOLING, -1.0)].into_iter().enumerate() {
            let beyond = sign * power > limit;
            let rest = if beyond { sign * kwh - limit * 1.0 / 1000.0 } else { 0.0 };
            assert_eq!(unmet[side][i], limited.then_some(rest.to_bits()), "hour {}", i + 1);
            if limited && beyond {
                left[side] += 1;
                held = ["heating", "cooling"][side];
            }
        }
        assert_eq!(column(&csv, "limit_held")[i], held, "hour {}", i + 1);
        let conditions = entry.conditions_bytes();
        let step = book.zone().hour_step(&state, conditions, entry.rule()).unwrap();
        assert_eq!(gains[i], Some(step.2.air_node.heating_or_cooling_system_gains.to_bits()));
        state = step.0;
    }
    assert!(left[0] > 0 && left[1] > 0, "{left:?}");
}

#[test]
fn a_report_of_three_versions_tells_the_plant_of_its_own_hours() {
    let (folder, book) = three_versions("versions");
    let report = folder.call(&["report", "p.book", "--csv", "x.csv"]).done();
    let entries = "\nEntries    10 of version 1 (cooling by frac_convective_heat), 10 of version 2 (cooling by \
                   frac_convective_cool), 10 of version 3 (cooling by frac_convective_cool, power with \
                   limits)\n";
    assert!(report.contains(entries), "{report}");
    assert!(report.contains("\nThe plant, in 10 hours with limits\n"), "{report}");
    let csv = folder.text("x.csv");
    assert!(csv.contains("\n# entries: 10 of version 1, 10 of version 2, 10 of version 3\n"));
    let held: Vec<usize> = book
        .entries()
        .enumerate()
        .filter(|(i, entry)| *i >= 20 && asked(entry).1 > HEATING)
        .map(|(i, _)| i + 1)
        .collect();
    let words = format!("held in {} hours, lowest operative temperature in them ", held.len());
    assert!(held.len() > 1 && report.contains(&words), "{held:?} {report}");
    let list = report.split("Most heating unmet").nth(1).unwrap().lines().skip(1);
    let mut listed: Vec<usize> =
        list.map_while(|line| line.get(9..13)?.trim().parse().ok()).collect();
    listed.sort();
    assert_eq!(listed, held);
}

#[test]
fn no_power_is_0_and_not_minus_0() {
    let words = ["--heating-limit=0", "--cooling-limit=0"];
    let (folder, book) = with_limits("nothing", &varied(10, 1.0), &words);
    assert!(book.entries().any(|entry| entry.delivered().is_sign_negative()));
    folder.call(&["report", "p.book", "--csv", "x.csv"]).done();
    assert_eq!(column(&folder.text("x.csv"), "delivered_W"), ["0"; 10]);
    for number in 1..=10 {
        let shown = folder.call(&["show", "p.book", "--hour", &number.to_string()]).done();
        assert!(shown.contains("\n# delivered = 0 W"), "{shown}");
    }
}

// ---- the drawing ----

const HEIGHT: f64 = 1606.0;
/// Top and bottom of the panel of loads.
const PANEL: (f64, f64) = (906.0, 1186.0);

/// Every vertical place of a drawing: of its elements and of the points of its paths.
fn all_y(svg: &str) -> Vec<f64> {
    let number = |text: &str| text.split(['"', 'L', 'Z']).next().unwrap().parse::<f64>().unwrap();
    let of = |name: &str| svg.split(name).skip(1).map(number).collect::<Vec<_>>();
    let paths = svg.split(" d=\"M").skip(1).map(|path| path.split('"').next().unwrap());
    let points = paths.flat_map(|path| path.trim_end_matches('Z').split('L'));
    let points = points.map(|point| number(point.split(' ').nth(1).unwrap()));
    [of(" y=\""), of(" y1=\""), of(" y2=\"")].concat().into_iter().chain(points).collect()
}

/// Where the words of a limit stand.
fn label(svg: &str, words: &str) -> Option<(f64, f64)> {
    let line = svg.lines().find(|line| line.ends_with(&format!(">{words}</text>")))?;
    let value = |name: &str| line.split(name).nth(1)?.split('"').next()?.parse().ok();
    Some((value(" x=\"")?, value(" y=\"")?))
}

fn drawn(folder: &Folder) -> String {
    folder.call(&["report", "p.book", "--svg", "x.svg"]).done();
    let svg = folder.text("x.svg");
    let places = all_y(&svg);
    assert!(places.len() > 100 && places.iter().all(|y| (0.0..=HEIGHT).contains(y)), "{places:?}");
    svg
}

#[test]
fn a_drawing_says_which_limit_held() {
    let (folder, book) = with_limits("drawn", &varied(60, 1.0), &BOTH);
    let svg = drawn(&folder);
    let side = |name: &str, told: &str, limit, sign| {
        let expected = expected(&book, limit, sign);
        let (count, unmet) = (expected.held.len(), expected.unmet());
        format!("{name} limit of {told} held in {count} hours, {unmet:.1} kWh unmet")
    };
    let line = format!(
        ">{}   ·   {}</text>",
        side("heating", "1,500 W", HEATING, 1.0),
        side("cooling", "250.5 W", COOLING, -1.0)
    );
    assert!(svg.contains(&line), "{line}");
    assert!(svg.contains(">entries: 60 of version 3</text>"));
    for words in ["heating limit 1.50 kW", "cooling limit 0.25 kW"] {
        let (_, y) = label(&svg, words).expect(words);
        assert!(PANEL.0 < y && y < PANEL.1, "{words} at {y}");
    }
    // A limit that never held is no line.
    let (folder, _) = with_limits("wide", &varied(60, 1.0), &["--heating-limit=1e6"]);
    let svg = drawn(&folder);
    let line = ">heating limit of 1,000,000 W never held   ·   \
                cooling limit of 10,000,000 W never held</text>";
    assert!(svg.contains(line) && !svg.contains("limit 1"), "{svg}");
}

#[test]
fn limits_that_change_are_drawn_inside_their_panel_or_not_at_all() {
    let year = varied(40, 1.0);
    let (folder, book) = with_limits("changed", &year[..20 * HOUR], &BOTH);
    // Without the option cooling has the greatest limit, which is far above the panel and never held.
    go_on(&folder, &year, &["--heating-limit=900"]);
    assert!(expected(&book, COOLING, -1.0).held.len() > 1);
    let svg = drawn(&folder);
    assert!(!svg.contains(">heating limit 1") && !svg.contains(">heating limit 0"), "two held");
    let (_, y) = label(&svg, "cooling limit 0.25 kW").expect("one held");
    assert!(PANEL.0 < y && y < PANEL.1, "{y}");
    let words = ">heating limit of 900 to 1,500 W held in ";
    assert!(svg.contains(words), "{words}");
}

#[test]
fn two_limits_are_named_beside_each_other() {
    for watts in ["0", "250.5", "900"] {
        let words = [format!("--heating-limit={watts}"), format!("--cooling-limit={watts}")];
        let words = words.each_ref().map(String::as_str);
        let (folder, _) = with_limits("both", &varied(60, 1.0), &words);
        let svg = drawn(&folder);
        let told = format!("limit {:.2} kW", watts.parse::<f64>().unwrap() / 1000.0);
        let heating = label(&svg, &format!("heating {told}")).expect(watts);
        let cooling = label(&svg, &format!("cooling {told}")).expect(watts);
        assert!(heating.0 - cooling.0 >= 200.0, "{heating:?} {cooling:?}");
        for (_, y) in [heating, cooling] {
            assert!(PANEL.0 < y && y < PANEL.1, "{y}");
        }
    }
}

// ---- an hour ----

#[test]
fn an_hour_that_is_shown_has_its_limits() {
    let (folder, book) = with_limits("shown", &varied(10, 1.0), &BOTH);
    let mut seen = [0; 3];
    for (place, entry) in book.entries().enumerate() {
        let shown = folder.call(&["show", "p.book", "--hour", &(place + 1).to_string()]).done();
        let (_, power) = asked(&entry);
        let (kind, delivered) = if power > HEATING {
            (0, "1500 W: the heating limit held".into())
        } else if power < -COOLING {
            (1, "-250.5 W: the cooling limit held".into())
        } else {
            (2, format!("{power} W"))
        };
        seen[kind] += 1;
        let lines = format!(
            "\n# entry_version = 3\n# heating_limit = 1500 W\n# cooling_limit = 250.5 W\n\
             # delivered = {delivered}\n# space_heat_demand = "
        );
        assert!(shown.contains(&lines), "{lines} in {shown}");
    }
    assert!(seen.iter().all(|count| *count > 0), "{seen:?}");
}
