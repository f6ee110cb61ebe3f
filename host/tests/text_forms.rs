//! What texts may look like, and what is read from them.
mod common;
#[path = "common/small.rs"]
mod small;

use common::Folder;
use hem_zone::text::*;
use hem_zone::AirChangesPerHour::{self, *};
use hem_zone::Conditions;
use small::{edited, plan, HOURS, HOUSE};

#[test]
fn the_texts_are_good() {
    let folder = Folder::new("forms_good");
    folder.write("h.toml", HOUSE.as_bytes());
    folder.write("h.csv", HOURS.as_bytes());
    let praise = folder.call(&["check", "h.toml", "h.csv"]).done();
    assert_eq!(
        praise,
        "h.toml: a house of 2 elements\nh.csv: 3 hours\n\
         no faults: start-up settles and every hour can be calculated, as entries of version 2\n"
    );
    let plan = plan();
    let hours = read_hours("h.csv", HOURS.as_bytes(), Some(&plan), &mut Faults::new()).unwrap();
    // An element's own value goes before that of all, a column before a constant.
    let temps: Vec<f64> = hours[0].elements.iter().map(|e| e.temp_ext).collect();
    let shading: Vec<f64> = hours[0].elements.iter().map(|e| e.f_sh_dir).collect();
    let open: Vec<u8> = hours.iter().map(|hour| hour.elements[1].open).collect();
    assert_eq!((temps, shading, open), (vec![18.0, 20.0], vec![1.0, 0.5], vec![3, 1, 0]));
    assert_eq!(hours[0].temp_setpnt_cool, hem_zone::NO_CONTROL);
    // What may be absent.
    assert_eq!(hours[0].temp_setpnt_cool_vent, hem_zone::NO_CONTROL);
    assert_eq!(hours[0].gains_heat_cool_convective.to_bits(), 0);
}

#[test]
fn numbers_are_read_to_the_nearest_float() {
    for (written, expected) in [
        ("36", 36.0),
        ("+36.0", 36.0),
        ("3_6.5", 36.5),
        ("3.6e1", 36.0),
        ("0.1", 0.1),
        ("0.1000000000000000055511151231257827021181583404541015625", 0.1),
        // Halfway between two floats goes to the even one, just above to the next.
        ("1.00000000000000011102230246251565404236316680908203125", 1.0),
        ("1.00000000000000011102230246251565404236316680908203126", 1.0 + f64::EPSILON),
        ("2.4703282292062328e-324", 5e-324),
        ("99999.99999999999999999", 100_000.0),
    ] {
        let text = edited(HOUSE, "useful_area = 36", &format!("useful_area = {written}"));
        let head = read_house("h.toml", &text, &mut Faults::new()).head.unwrap();
        assert_eq!(head.useful_area.to_bits(), f64::to_bits(expected), "{written}");
        if !written.contains('_') {
            let hours = HOURS.replace("1 Jan,21,100", &format!("1 Jan,21,{written}"));
            let hours = read_hours("h.csv", hours.as_bytes(), Some(&plan()), &mut Faults::new());
            assert_eq!(hours.unwrap()[1].gains_internal.to_bits(), f64::to_bits(expected));
        }
    }
    for zero in ["-0", "-0.0", "-0e5"] {
        let text = edited(HOUSE, "temp_ext_air_init = 20", &format!("temp_ext_air_init = {zero}"));
        let head = read_house("h.toml", &text, &mut Faults::new()).head.unwrap();
        assert_eq!(head.temp_ext_air_init.to_bits(), f64::to_bits(-0.0), "{zero}");
        let hours = HOURS.replace("1 Jan,21,100", &format!("1 Jan,21,{zero}"));
        let hours = read_hours("h.csv", hours.as_bytes(), Some(&plan()), &mut Faults::new());
        assert_eq!(hours.unwrap()[1].gains_internal.to_bits(), f64::to_bits(-0.0), "{zero}");
    }
}

#[test]
fn texts_as_other_programs_write_them() {
    let folder = Folder::new("forms_other");
    let make = |house: &[u8], hours: &[u8]| {
        folder.write("h.toml", house);
        folder.write("h.csv", hours);
        folder.call(&["hours", "h.csv", "h.year", "--head", "h.toml"]).done();
        folder.read("h.year")
    };
    let expected = make(HOUSE.as_bytes(), HOURS.as_bytes());
    // Lines that end with CR LF, a byte order mark, spaces, quotes, comments, columns in another order.
    let dos = |text: &str| format!("\u{feff}{}", text.replace('\n', "\r\n"));
    assert_eq!(make(dos(HOUSE).as_bytes(), dos(HOURS).as_bytes()), expected);
    let spaced = HOURS.replace(',', " , ").replace("\n", "\n\n# note\n");
    assert_eq!(make(HOUSE.as_bytes(), spaced.as_bytes()), expected);
    let turned: Vec<String> = HOURS
        .lines()
        .map(|l| l.split(',').rev().map(|f| format!("\"{f}\"")).collect::<Vec<_>>().join(","))
        .collect();
    assert_eq!(make(HOUSE.as_bytes(), turned.join("\n").as_bytes()), expected);

    let trailing = HOURS.replace('\n', ",,\n") + ",,,,,,,,,,,,,,,,,\n";
    assert_eq!(make(HOUSE.as_bytes(), trailing.as_bytes()), expected);
    let more = HOURS.replace("\n1 Jan", ",,\n1 Jan").replacen("hour,,", "hour", 1);
    assert_eq!(make(HOUSE.as_bytes(), more.as_bytes()), expected);
    let mut told = Faults::new();
    let under_nothing = trailing.replacen("none,3,,", "none,3,7,", 1);
    read_hours("h.csv", under_nothing.as_bytes(), Some(&plan()), &mut told);
    assert_eq!(told.told(), ["h.csv:4: \"7\" stands in a column without a heading"]);

    let wide = |text: &str| -> Vec<u8> {
        [0xff, 0xfe].into_iter().chain(text.encode_utf16().flat_map(u16::to_le_bytes)).collect()
    };
    folder.write("wide.csv", &wide(HOURS));
    folder.call(&["hours", "wide.csv", "w.year"]).failed(2, "is UTF-16 text: it must be saved as");
    folder.write("latin.toml", &[HOUSE.as_bytes(), b"# \xb0C\n"].concat());
    folder
        .call(&["house", "latin.toml", "l.head"])
        .failed(1, "latin.toml:48: this is not UTF-8 text");
    folder.call(&["house", "h.year", "l.head"]).failed(2, "h.year: is not text");
    folder.call(&["hours", "h.year", "l.year"]).failed(2, "h.year: is not text");
}

/// The hours with the fields `rate,ach_target,ach_cooling` of each.
fn with_rates(rates: [&str; 3]) -> String {
    let heading = edited(HOURS, ",rate,", ",rate,ach_target,ach_cooling,");
    let put = |text: String, rates: &str| {
        assert!(text.contains(",20,0.5,20,18,"));
        text.replacen(",20,0.5,20,18,", &format!(",20,{rates},20,18,"), 1)
    };
    rates.into_iter().fold(heading, put)
}

/// The rates of the hours of a text, for a house with these constants.
fn rates_of(constants: &str, hours: &str, faults: &mut Faults) -> Option<Vec<AirChangesPerHour>> {
    let constants = format!("delta_t_h = 1\n{constants}");
    let house = edited(HOUSE, "delta_t_h = 1", &constants);
    let plan = read_house("h.toml", &house, faults).plan.unwrap();
    let hours = read_hours("h.csv", hours.as_bytes(), Some(&plan), faults)?;
    Some(hours.iter().map(|hour| hour.ach).collect())
}

const WITHOUT_RATES: [&str; 3] = [",,"; 3];

fn one_rate(rate: f64) -> AirChangesPerHour {
    TargetAndWindowsOpen { ach_target: rate, ach_windows_open: rate }
}

#[test]
fn rates_of_every_kind() {
    let rates = |constants, hours: &str| rates_of(constants, hours, &mut Faults::new()).unwrap();
    let open = |ach_target| TargetAndWindowsOpen { ach_target, ach_windows_open: 3.0 };
    let constant = "ach_windows_open = 3";
    let found = rates(constant, &with_rates(["0.5,,", ",0.7,", ",,0.25"]));
    assert_eq!(found, [one_rate(0.5), open(0.7), Cooling { ach_cooling: 0.25 }]);
    // rate is code 1 with the rate twice, to the bit; ach_cooling is code 0.
    let found = rates(constant, &with_rates(["-0,,", "1e3,,", ",,-0"]));
    let minus = |rate: f64| rate == 0.0 && rate.is_sign_negative();
    assert!(
        matches!(found[0], TargetAndWindowsOpen { ach_target, ach_windows_open }
            if minus(ach_target) && minus(ach_windows_open)),
        "{found:?}"
    );
    assert_eq!(found[1], one_rate(1000.0));
    assert!(matches!(found[2], Cooling { ach_cooling } if minus(ach_cooling)), "{found:?}");

    for (written, expected) in [
        ("rate = 0.25", one_rate(0.25)),
        ("ach_cooling = 0.25", Cooling { ach_cooling: 0.25 }),
        ("rate = 0.25\nach_windows_open = 3", one_rate(0.25)),
        ("ach_target = 0.25\nach_windows_open = 3", open(0.25)),
    ] {
        assert_eq!(rates(written, &with_rates(WITHOUT_RATES)), [expected; 3]);
        // What stands in a line goes before it.
        let found = rates(written, &with_rates(["0.5,,", ",,", ",,0.5"]));
        assert_eq!(found, [one_rate(0.5), expected, Cooling { ach_cooling: 0.5 }]);
    }
}

#[test]
fn rates_of_two_kinds_are_a_fault() {
    let constant = "ach_windows_open = 3";
    for (rates, fault) in [
        ("0.5,0.5,", "rate is given together with ach_target, ach_windows_open or ach_cooling"),
        ("0.5,,0.5", "rate is given together with ach_target, ach_windows_open or ach_cooling"),
        ("0.5,0.5,0.5", "rate is given together with ach_target, ach_windows_open or ach_cooling"),
        (",0.5,0.5", "ach_cooling is given together with ach_target or ach_windows_open"),
        (",,", "either rate or both ach_target and ach_windows_open are needed"),
        ("1001,,", "rate is 1001, out of its range 0 to 1,000"),
        ("x,,", "rate is \"x\", not a number (0 to 1,000)"),
        (",,1001", "ach_cooling is 1001, out of its range 0 to 1,000"),
    ] {
        let mut told = Faults::new();
        let found = rates_of(constant, &with_rates(["0.5,,", rates, ",,0.5"]), &mut told);
        assert_eq!((found, told.told()), (None, &[format!("h.csv:3: {fault}")][..]));
    }
    let needed = "either rate or both ach_target and ach_windows_open are needed";
    for constants in [
        "rate = 0.5\nach_cooling = 0.5",
        "rate = 0.5\nach_target = 0.5\nach_windows_open = 3",
        "ach_cooling = 0.5\nach_target = 0.5\nach_windows_open = 3",
    ] {
        let mut told = Faults::new();
        assert_eq!(rates_of(constants, &with_rates(WITHOUT_RATES), &mut told), None);
        assert_eq!(told.told(), [2, 3, 4].map(|line| format!("h.csv:{line}: {needed}")));
    }
    // Where none can come from anywhere, that is told once.
    let mut told = Faults::new();
    let without = HOURS.replace(",rate,", ",").replace(",20,0.5,20,18,", ",20,20,18,");
    assert_eq!(rates_of("ach_windows_open = 3", &without, &mut told), None);
    assert_eq!(told.told(), [format!("h.csv:1: {needed}")]);
}

/// The rates that a table of an hour has, by its columns.
fn shown(rates: AirChangesPerHour) -> Vec<(String, String)> {
    let hours = read_hours("h.csv", HOURS.as_bytes(), Some(&plan()), &mut Faults::new()).unwrap();
    let hour = Conditions { ach: rates, ..hours[0].clone() };
    let text = write_hours(&[hour], &plan(), 1);
    let mut lines = text.lines().map(|line| line.split(',').map(String::from));
    let columns = lines.next().unwrap().zip(lines.next().unwrap());
    columns.filter(|(name, _)| name == "rate" || name.starts_with("ach_")).collect()
}

#[test]
fn equal_rates_are_written_as_one() {
    let columns = |columns: &[(&str, &str)]| {
        columns.iter().map(|(name, cell)| (name.to_string(), cell.to_string())).collect::<Vec<_>>()
    };
    let two = |ach_target, ach_windows_open| TargetAndWindowsOpen { ach_target, ach_windows_open };
    for (rates, cells) in [
        (one_rate(0.45), ["0.45", "", ""]),
        (two(0.0, 0.0), ["0", "", ""]),
        (two(-0.0, -0.0), ["-0", "", ""]),
        (two(0.0, -0.0), ["", "0", "-0"]),
        (two(0.5, 0.5_f64.next_up()), ["", "0.5", "0.5000000000000001"]),
    ] {
        let [rate, target, open] = cells;
        let expected =
            columns(&[("rate", rate), ("ach_target", target), ("ach_windows_open", open)]);
        assert_eq!(shown(rates), expected);
    }
    // Only an hour that has a fixed rate has a column for it.
    let expected =
        [("rate", ""), ("ach_target", ""), ("ach_windows_open", ""), ("ach_cooling", "2")];
    assert_eq!(shown(Cooling { ach_cooling: 2.0 }), columns(&expected));
}

#[test]
fn an_hour_of_a_table_has_a_line() {
    assert_eq!(hour_lines(HOURS.as_bytes()), [2, 3, 4]);
    let spaced = HOURS.replace("\n", "\n\n# note\n,,,\n");
    assert_eq!(hour_lines(spaced.as_bytes()), [5, 9, 13]);
    assert!(hour_lines(b"").is_empty() && hour_lines(b"temp_ext_air\n").is_empty());
}

#[test]
fn an_output_does_not_replace_its_source() {
    let folder = Folder::new("forms_source");
    folder.write("h.toml", HOUSE.as_bytes());
    folder.write("h.csv", HOURS.as_bytes());
    let words = "is the file that is read, too";
    folder.call(&["house", "h.toml", "h.toml", "--force"]).failed(2, words);
    folder.call(&["hours", "h.csv", "h.csv", "--force"]).failed(2, words);
    folder.call(&["hours", "h.csv", "h.toml", "--head", "h.toml", "--force"]).failed(2, words);
    folder.call(&["house", "h.toml", "h.csv"]).failed(2, "exists and is not a head; --force");
    folder.call(&["house", "h.toml", "h.head"]).done();
    folder.call(&["house", "h.toml", "h.head"]).done();
    // Without a house the elements are those of the columns; here there is none.
    folder.write("x.csv", b"temp_ext_air\n20\n");
    folder
        .call(&["hours", "x.csv", "x.year"])
        .failed(1, "x.csv:1: there is no column of an element");
    folder
        .call(&["hours", "h.csv", "h.head", "--head", "h.toml"])
        .failed(2, "is not a file of conditions");
    assert_eq!(folder.text("h.toml"), HOUSE);
    assert_eq!(folder.text("h.csv"), HOURS);
}
