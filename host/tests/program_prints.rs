//! hem-year report: the table, the drawing, the names and the fingerprints, held against the book itself.
mod common;

use common::hours::{varied, with_year};
use common::table::table;
use common::{Folder, ENTRY, HEAD};
use hem_zone::samples::hour_p;
use hem_zone::{AirChangesPerHour, Conditions};
use sha2::{Digest, Sha256};

// ---- the table ----

#[test]
fn the_table_has_every_value_to_the_bit() {
    let (folder, book) = with_year("table", &varied(60, 0.75));
    folder.call(&["report", "p.book", "--csv", "x.csv", "--balance", "--nodes"]).done();
    let text = folder.text("x.csv");
    let (names, rows) = table(&text);
    assert_eq!(rows.len(), 60);
    let mut state = book.zone().start_up().unwrap();
    for (i, (entry, row)) in book.entries().zip(&rows).enumerate() {
        let cell = |name: &str| {
            row[names.iter().position(|n| *n == name).unwrap_or_else(|| panic!("{name}"))]
        };
        let same = |name: &str, value: f64| {
            assert_eq!(cell(name).parse::<f64>().unwrap().to_bits(), value.to_bits(), "{name}, {i}")
        };
        let (c, demand) = (entry.conditions(), entry.demand());
        assert_eq!(cell("hour"), (i + 1).to_string());
        let e = c.elements[0];
        same("delta_t_h", 0.75);
        same("temp_ext_air", c.temp_ext_air);
        same("gains_internal", c.gains_internal);
        same("gains_solar", c.gains_solar);
        same("frac_convective_heat", c.frac_convective_heat);
        same("frac_convective_cool", c.frac_convective_cool);
        same("temp_setpnt_heat", c.temp_setpnt_heat);
        same("temp_setpnt_cool", c.temp_setpnt_cool);
        same("temp_setpnt_cool_vent", c.temp_setpnt_cool_vent);
        same("avg_air_supply_temp", c.avg_air_supply_temp);
        same("gains_heat_cool_convective", c.gains_heat_cool_convective);
        same("gains_heat_cool_radiative", c.gains_heat_cool_radiative);
        same("element_1.temp_ext", e.temp_ext);
        same("element_1.i_sol_dir", e.i_sol_dir);
        same("element_1.i_sol_dif", e.i_sol_dif);
        same("element_1.f_sh_dir", e.f_sh_dir);
        same("element_1.f_sh_dif", e.f_sh_dif);
        assert_eq!(cell("element_1.open"), "none");
        same("heating_kWh", demand.space_heat_demand);
        same("cooling_kWh", 0.0 - demand.space_cool_demand);
        same("ach_chosen", demand.ach_cooling);
        same("temp_internal_air", entry.state().temp_internal_air());
        same("temp_operative", entry.temp_operative());
        same("element_1.node_1", entry.state().temps()[0]);
        same("element_1.node_2", entry.state().temps()[1]);
        assert_eq!(cell("windows_used"), ["0", "1"][usize::from(demand.ach_cooling > 0.5)]);
        let expected = match c.ach {
            AirChangesPerHour::TargetAndWindowsOpen { ach_target: 0.5, ach_windows_open: 4.0 } => {
                ["", "0.5", "4"]
            }
            _ => ["0", "", ""],
        };
        assert_eq!(["rate", "ach_target", "ach_windows_open"].map(cell), expected);
        assert!(!names.contains(&"ach_cooling"), "no hour has a fixed rate");
        assert_eq!(cell("ach_to_trigger_heating").parse().ok(), demand.ach_to_trigger_heating);
        assert_eq!((cell("entry_version"), entry.version()), ("2", 2));
        let step = book.zone().hour_step(&state, entry.conditions_bytes(), entry.version());
        let (after, _, balance) = step.unwrap();
        same("air_node.fabric_heat_loss", balance.air_node.fabric_heat_loss);
        let inner = balance.internal_boundary;
        same("internal_boundary.fabric_int_sol", inner.fabric_int_sol);
        let across = inner.fabric_int_air_convective_horizontal;
        same("internal_boundary.fabric_int_air_convective_horizontal", across);
        same("external_boundary.ztu_fabric_ext", balance.external_boundary.ztu_fabric_ext);
        state = after;
    }
    assert_eq!(
        (rows[0][1], rows[1][1], rows[33][1]),
        ("2001-01-01T00:00:00", "2001-01-01T00:45:00", "2001-01-02T00:45:00")
    );
    assert!(rows.iter().any(|row| row.contains(&"4")), "windows are used");
}

#[test]
fn the_table_has_other_columns_only_when_they_are_asked_for() {
    let (folder, _) = with_year("columns", &varied(2, 1.0));
    let columns = |options: &[&str]| {
        folder.call(&[&["report", "p.book", "--csv", "x.csv"], options].concat()).done();
        table(&folder.text("x.csv")).0.len()
    };
    let plain = columns(&[]);
    assert_eq!(columns(&["--balance"]), plain + 28);
    assert_eq!(columns(&["--nodes"]), plain + 2);
}

// ---- the drawing ----

/// Heights of the bars of a colour, in order.
fn bars(svg: &str, colour: &str) -> Vec<f64> {
    let filled = format!("fill=\"{colour}\" fill-opacity=\"1\"");
    let height = |line: &str| line.split("height=\"").nth(1)?.split('"').next()?.parse().ok();
    svg.lines()
        .filter(|l| l.starts_with("<rect") && l.contains(&filled))
        .filter_map(height)
        .collect()
}

const HEATING: &str = "#d9593d";

#[test]
fn bars_are_the_demand_of_the_days() {
    for (count, length) in [(480, 1.0), (1920, 0.25), (960, 0.5), (20, 23.5), (160, 3.0)] {
        let (folder, book) = with_year("bars", &varied(count, length));
        folder.call(&["report", "p.book", "--svg", "x.svg"]).done();
        let heights = bars(&folder.text("x.svg"), HEATING);
        let mut days = [0.0; 20];
        for (i, entry) in book.entries().enumerate() {
            let (start, end) = (i as f64 * length, (i + 1) as f64 * length);
            for (day, sum) in days.iter_mut().enumerate() {
                let (from, to) = (day as f64 * 24.0, (day + 1) as f64 * 24.0);
                let share = ((end.min(to) - start.max(from)) / length).max(0.0);
                *sum += share * entry.demand().space_heat_demand;
            }
        }
        assert_eq!(heights.len(), days.iter().filter(|d| **d > 0.0).count());
        let (most, highest) =
            (days.iter().copied().fold(0.0, f64::max), heights.iter().copied().fold(0.0, f64::max));
        for (height, day) in heights.iter().zip(days.iter().filter(|d| **d > 0.0)) {
            assert!(
                (height / highest - day / most).abs() < 0.01,
                "{height} of {highest}, {day} of {most}"
            );
        }
    }
}

#[test]
fn long_hours_are_spread_over_their_days() {
    let long = |hours: f64| {
        Conditions {
            delta_t_h: hours,
            temp_ext_air: 0.0,
            gains_internal: -900.0,
            ..hour_p(21.0, 24.0)
        }
        .to_bytes()
    };
    let (folder, book) = with_year("long", &long(8760.0));
    let report = folder.call(&["report", "p.book", "--svg", "x.svg"]).done();
    assert!(
        report.contains("8,760 hours in 1 step held, from 1 Jan 00:00 to 31 Dec 24:00"),
        "{report}"
    );
    assert!(report.contains(" kWh/m²) in 8,760 hours, highest "), "{report}");
    let svg = folder.text("x.svg");
    let heights = bars(&svg, HEATING);
    assert_eq!(heights.len(), 365);
    assert!(heights.iter().all(|h| (h - heights[0]).abs() < 0.2));
    assert!(book.entry(0).unwrap().demand().space_heat_demand > 0.0);

    // Many years: some days together, the last of them not held to their end.
    let (folder, _) = with_year("years", &long(8000.0).repeat(31));
    let report = folder.call(&["report", "p.book", "--svg", "x.svg"]).done();
    let held = "248,000 hours in 31 steps held, from 1 Jan 00:00 to day 10334 08:00";
    assert!(report.contains(held), "{report}");
    let svg = folder.text("x.svg");
    assert!(svg.contains("kWh a day (means of 29 days)"), "{}", &svg[..2000]);
    let heights = bars(&svg, HEATING);
    assert_eq!(heights.len(), 357);
    let last = heights[356];
    assert!(heights[20..].iter().all(|h| (h - last).abs() < 0.2 && *h < 280.0), "{heights:?}");
    assert!(!svg.contains("NaN") && !svg.contains("inf"));
}

#[test]
fn short_hours_have_their_own_times() {
    let (folder, _) = with_year("short", &varied(2000, 0.001));
    let report = folder.call(&["report", "p.book", "--svg", "x.svg", "--csv", "x.csv"]).done();
    assert!(
        report.contains("2 hours in 2,000 steps held, from 1 Jan 00:00 to 1 Jan 02:00"),
        "{report}"
    );
    let text = folder.text("x.csv");
    let (_, rows) = table(&text);
    assert_eq!((rows[1][1], rows[1999][1]), ("2001-01-01T00:00:03.600", "2001-01-01T01:59:56.400"));
    let svg = folder.text("x.svg");
    assert!(svg.contains("2 hours in 2,000 steps") && svg.contains(">1 Jan</text>"));
}

// ---- names and fingerprints ----

#[test]
fn every_print_has_the_name_and_the_fingerprints() {
    let (folder, _) = with_year("prints", &varied(30, 1.0));
    let words =
        ["report", "p.book", "--csv", "x.csv", "--svg", "x.svg", "--name", "Mill <4> & \"Co\""];
    let report = folder.call(&words).done();
    assert!(report.starts_with("Mill <4> & \"Co\": "), "{report}");
    let (csv, svg) = (folder.text("x.csv"), folder.text("x.svg"));
    assert!(
        csv.contains("# house: Mill <4> & \"Co\"\n")
            && csv.contains("# useful floor area: 36 m2\n# entries: 30 of version 2\n")
    );
    assert!(
        svg.contains(">Mill &lt;4&gt; &amp; &quot;Co&quot;: heating and cooling</text>"),
        "{}",
        &svg[..900]
    );
    assert!(
        svg.contains("floor area 36 m²")
            && svg.contains(" kWh/m²)")
            && svg.contains(">entries: 30 of version 2</text>")
            && svg.contains(concat!("hem-year ", env!("CARGO_PKG_VERSION")))
    );
    for (name, file) in [("head", "p.head"), ("conditions", "p.year"), ("book", "p.book")] {
        let digits: String =
            Sha256::digest(folder.read(file)).iter().map(|b| format!("{b:02x}")).collect();
        assert!(report.contains(&format!("SHA-256 of {name:10}  {digits}\n")), "{name} {report}");
        assert!(csv.contains(&format!("# SHA-256 of {name}: {digits}\n")));
        assert!(svg.contains(&format!("SHA-256 of {name}: {digits}</text>")));
    }
    let again = folder.call(&["report", "p.book"]).done();
    assert!(again.starts_with("p: "), "{again}");
}

#[test]
fn a_house_file_gives_the_names() {
    let folder = Folder::new("named");
    folder.call(&["sample", "."]).done();
    let year = folder.read("terrace.year");
    folder.write("two.year", &year[..2 * year.len() / 8760]);
    folder.call(&["run", "terrace.head", "two.year", "t.book"]).done();
    let report =
        folder.call(&["report", "t.book", "--csv", "x.csv", "--head", "terrace.toml"]).done();
    let toml = folder.text("terrace.toml");
    let named = toml.lines().find(|line| line.starts_with("name = ")).unwrap();
    let name = named.split('"').nth(1).unwrap();
    assert!(report.starts_with(&format!("{name}: ")), "{report}");
    let element = toml.split("\n[element.").nth(1).unwrap().split(']').next().unwrap();
    let csv = folder.text("x.csv");
    let (names, rows) = table(&csv);
    assert!(
        names.contains(&format!("{}.temp_ext", element.trim_matches('"')).as_str()),
        "{names:?}"
    );

    let open = names.iter().position(|name| *name == "front_window.open").unwrap();
    assert_eq!(rows[0][open], "2", "by night the curtain is closed and the shutter is not");

    let with_name = |line: &str| toml.replace(named, line).into_bytes();
    folder.write("named.toml", &with_name("name = \"Mill Lane 4, left\""));
    let report = folder.call(&["report", "t.book", "--head=named.toml"]).done();
    assert!(report.starts_with("Mill Lane 4, left: "), "{report}");
    let report = folder.call(&["report", "t.book", "--head=named.toml", "--name", "5"]).done();
    assert!(report.starts_with("5: "), "{report}");
    let other = toml.replace("useful_area = 78.0", "useful_area = 79.0");
    assert_ne!(other, toml);
    folder.write("other.toml", other.as_bytes());
    let words =
        "t.book: was begun with another head than other.toml: useful_area is 78 in the book, 79 in";
    folder.call(&["report", "t.book", "--head", "other.toml"]).failed(2, words);
    folder.write("nameless.toml", &with_name(""));
    let report = folder.call(&["report", "t.book", "--head=nameless.toml"]).done();
    assert!(report.starts_with("t: "), "{report}");
    folder.write("bad.toml", &with_name("name = 5"));
    folder.call(&["report", "t.book", "--head", "bad.toml"]).failed(1, ": name is 5, not a name");
    let words = "is the house, which a report does not replace";
    folder
        .call(&["report", "t.book", "--head", "named.toml", "--csv", "named.toml"])
        .failed(2, words);
}

#[test]
fn a_changed_condition_without_effect_is_another_book() {
    let (folder, _) = with_year("effect", &varied(30, 1.0));
    let before = folder.call(&["report", "p.book"]).done();
    let bytes = folder.read("p.book");
    // The sun on an element that absorbs none of it changes nothing.
    let sun = HEAD + 3 * ENTRY + 5 + 113 + 8;
    let changed = [&bytes[..sun], &1.5_f64.to_be_bytes(), &bytes[sun + 8..]].concat();
    folder.write("p.book", &changed);
    let after = folder.call(&["report", "p.book"]).done();
    let differing: Vec<_> = before.lines().zip(after.lines()).filter(|(a, b)| a != b).collect();
    assert_eq!(differing.len(), 2);
    assert!(
        differing[0].0.starts_with("SHA-256 of conditions")
            && differing[1].0.starts_with("SHA-256 of book")
    );
    let words = "hour 4 (1 Jan 03:00) was calculated with other conditions than p.year has: \
                 element 1: i_sol_dir is 1.5 in the book, 100.5 in p.year";
    folder.run().failed(2, words);
}

#[test]
fn a_report_leaves_an_unfinished_hour_out() {
    let (folder, _) = with_year("unfinished", &varied(2, 1.0));
    let cut = folder.read("p.book")[..HEAD + ENTRY + 99].to_vec();
    folder.write("p.book", &cut);
    let report = folder.call(&["report", "p.book"]).done();
    assert!(report.contains("1 hour held") && report.contains("The last 99 bytes are"), "{report}");
    assert_eq!(folder.read("p.book"), cut, "a report does not touch the book");
    folder.write("p.book", &cut[..HEAD]);
    let report = folder.call(&["report", "p.book", "--svg", "x.svg", "--csv", "x.csv"]).done();
    assert!(report.contains("no hours held"), "{report}");
    assert!(!folder.text("x.svg").contains("NaN"));
    assert!(folder.text("x.svg").contains(">entries: none</text>"));
    assert!(folder.text("x.csv").contains("\n# entries: none\n"));
}
