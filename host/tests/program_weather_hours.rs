//! hem-year weather into hours: what of a table and of a year changes, and what is said of it.
mod common;
#[path = "common/epw.rs"]
mod epw;

use common::{Folder, HOUR};
use epw::{file, line};
use std::time::{Duration, Instant};

/// A weather file of these lines.
fn weather(lines: &[[&str; 3]]) -> Vec<u8> {
    let lines: Vec<String> = lines.iter().map(|[a, b, c]| line(a, b, c)).collect();
    file(lines.join("\r\n") + "\r\n")
}

const THREE: [[&str; 3]; 3] = [["-1.50", "0", "5"], ["-0", "700", "60.5"], ["21", "33", "0.1"]];

/// Three hours of House P as bytes and as a table, and a weather file of three lines.
fn house_p(name: &str) -> Folder {
    let folder = Folder::with_house_p(name, 3);
    let csv = folder.call(&["show", "p.year"]).done();
    folder.write("p.csv", csv.as_bytes());
    folder.write("w.epw", &weather(&THREE));
    folder
}

/// The values of a column of a table, as they stand there.
fn column(table: &str, name: &str) -> Vec<String> {
    let mut rows = csv::ReaderBuilder::new().from_reader(table.as_bytes());
    let place = rows.headers().unwrap().iter().position(|heading| heading == name).unwrap();
    rows.records().map(|row| row.unwrap()[place].to_string()).collect()
}

#[test]
fn every_other_byte_of_a_table_stays() {
    let folder = Folder::new("weather_bytes");
    folder.write("w.epw", &weather(&THREE));
    let old = "\u{feff}# 9, \"9\r\n\"hour\" ,\"a,b.temp_ext\",note, temp_ext_air ,b=.i_sol_dir,i_sol_dif\r\n\r\n\
               1,7,\"x,\"\"y\", 03.40 ,1,2,\n# 5,5,5,5,5,5\n,, ,\"\",,\r\n\
               2 ,7,,\"4\",1,2\r\r3,7,\"\n\",5,1,\"2\"";
    let new = "\u{feff}# 9, \"9\r\n\"hour\" ,\"a,b.temp_ext\",note, temp_ext_air ,b=.i_sol_dir,i_sol_dif\r\n\r\n\
               1,-1.5,\"x,\"\"y\",-1.5,0,5,\n# 5,5,5,5,5,5\n,, ,\"\",,\r\n\
               2 ,-0,,-0,175,60.5\r\r3,21,\"\n\",21,8.25,0.1";
    folder.write("old.csv", old.as_bytes());
    let options = [
        "--dry-bulb",
        " temp_ext_air,\"a,b.temp_ext\"",
        "--direct=b=.i_sol_dir = 0.25",
        "--diffuse",
        "i_sol_dif",
    ];
    let said =
        folder.call(&[&["weather", "w.epw", "old.csv", "new.csv"], &options[..]].concat()).done();
    assert_eq!(folder.text("new.csv"), new);
    assert_eq!(folder.text("old.csv"), old);
    let expected = "\
new.csv: 3 hours of old.csv, with the weather of w.epw from line 1 on
Dry bulb            in temp_ext_air, a,b.temp_ext
Direct normal       in b=.i_sol_dir (× 0.25)
Diffuse horizontal  in i_sol_dif
";
    assert_eq!(said, expected);
}

#[test]
fn without_options_the_external_air_gets_the_dry_bulb() {
    let folder = house_p("weather_default");
    let old = folder.text("p.csv");
    let said = folder.call(&["weather", "w.epw", "p.csv", "new.csv"]).done();
    let new = folder.text("new.csv");
    assert_eq!(column(&new, "temp_ext_air"), ["-1.5", "-0", "21"]);
    let names = old.lines().next().unwrap().split(',');
    for name in names.filter(|name| *name != "temp_ext_air") {
        assert_eq!(column(&new, name), column(&old, name), "{name}");
    }
    assert!(said.starts_with(
        "new.csv: 3 hours of p.csv, with the weather of w.epw from line 1 on\nDry bulb"
    ));
}

/// A product is rounded once, to the nearest f64.
#[test]
fn a_factor_is_one_product() {
    let folder = house_p("weather_factor");
    let put = |factor: &str| {
        let option = format!("--diffuse=element_1.i_sol_dif={factor}");
        folder.call(&["weather", "w.epw", "p.csv", "new.csv", &option, "--force"]).done();
        column(&folder.text("new.csv"), "element_1.i_sol_dif")
    };
    for (factor, value) in [("0.1", 0.1), ("3e-1", 0.3), ("1", 1.0), (".7", 0.7), ("0", 0.0)] {
        let expected = [5.0, 60.5, 0.1].map(|number: f64| (value * number).to_string());
        assert_eq!(put(factor), expected, "{factor}");
    }
    // As other tables of hours have so small a number.
    assert_eq!(put("1e-300"), ["5e-300", "6.05e-299", "1e-301"]);
}

/// What was the external temperature in every hour is probably meant too.
#[test]
fn a_temperature_that_was_the_external_one_is_told() {
    let folder = Folder::new("weather_left");
    folder.write("w.epw", &weather(&THREE));
    let rows = "1,9,9.0,9,9\n2,8,8,8,8\n3,7,7,7.5,7e0\n";
    let heading = "hour,temp_ext_air,avg_air_supply_temp,temp_ext,wall.temp_ext\n";
    folder.write("h.csv", (heading.to_string() + rows).as_bytes());
    let put = |columns: &str| {
        folder
            .call(&["weather", "w.epw", "h.csv", "n.csv", "--force", "--dry-bulb", columns])
            .done()
    };
    let last = |said: &str| said.lines().skip(2).map(String::from).collect::<Vec<_>>();
    let both = "avg_air_supply_temp, wall.temp_ext had the external temperature in every hour and are left as \
                before; `--dry-bulb temp_ext_air,avg_air_supply_temp,wall.temp_ext` names them too";
    assert_eq!(last(&put("temp_ext_air")), [both]);
    let one = "wall.temp_ext had the external temperature in every hour and is left as before; \
               `--dry-bulb avg_air_supply_temp,temp_ext,temp_ext_air,wall.temp_ext` names it too";
    assert_eq!(last(&put("avg_air_supply_temp,temp_ext,temp_ext_air")), [one]);
    assert!(last(&put("temp_ext_air,avg_air_supply_temp,wall.temp_ext")).is_empty());
    // The external temperature itself may be left, and names may need quotes.
    let own = "temp_ext_air, avg_air_supply_temp, wall.temp_ext had the external";
    assert!(last(&put("temp_ext"))[0].starts_with(own));
    folder.write("h.csv", heading.replace("wall", "\"big wall, north\"").as_bytes());
    folder
        .shell("sed -i 's/\"\\.temp_ext/.temp_ext\"/' h.csv && printf '1,9,9,9.5,9\\n' >> h.csv")
        .done();
    let quoted = "`--dry-bulb 'temp_ext_air,avg_air_supply_temp,\"big wall, north.temp_ext\"'` names them too";
    assert!(last(&put("temp_ext_air"))[0].ends_with(quoted), "{}", put("temp_ext_air"));
    let words = "temp_ext_air,avg_air_supply_temp,\"big wall, north.temp_ext\"";
    assert_eq!(last(&put(words)), ["w.epw has 2 more lines, not used"]);
    // A table without the external temperature has none to compare with.
    folder.write("h.csv", b"avg_air_supply_temp,temp_ext\n1,1\n");
    assert!(last(&put("temp_ext")).iter().all(|line| !line.contains("left")));
}

// ---- a year as bytes ----

#[test]
fn a_year_gets_what_its_table_gets() {
    let folder = house_p("weather_year");
    for columns in [
        &[][..],
        &["--dry-bulb", "element_1.temp_ext,avg_air_supply_temp"],
        &["--direct", "element_1.i_sol_dir=0.5", "--diffuse=element_1.i_sol_dif"],
    ] {
        let put = |from: &str, to: &str| {
            folder.call(&[&["weather", "w.epw", from, to, "--force"], columns].concat()).done()
        };
        let (of_table, of_year) = (put("p.csv", "n.csv"), put("p.year", "n.year"));
        assert_eq!(of_table.replace(".csv", ".year"), of_year);
        folder.call(&["hours", "n.csv", "h.year"]).done();
        assert!(folder.read("h.year") == folder.read("n.year"), "{columns:?}");
        assert_ne!(folder.read("n.year"), folder.read("p.year"));
        folder.call(&["check", "p.head", "n.year"]).done();
        folder.call(&["check", "p.head", "n.csv"]).done();
    }
}

#[test]
fn in_a_year_a_value_of_all_elements_is_put_into_each() {
    let folder = Folder::new("weather_elements");
    folder.call(&["sample", "."]).done();
    let year = folder.read("terrace.year");
    let size = year.len() / 8760;
    folder.write("t.year", &year[..2 * size]);
    folder.write("w.epw", &weather(&THREE));
    let put = |options: &[&str]| {
        folder
            .call(&[&["weather", "w.epw", "t.year", "n.year", "--force"], options].concat())
            .done();
        folder.call(&["show", "n.year", "--head", "terrace.toml"]).done()
    };
    let names = folder.call(&["show", "t.year", "--head", "terrace.toml"]).done();
    let names = names.lines().next().unwrap();
    let of = |value: &'static str| names.split(',').filter(move |name| name.ends_with(value));
    let table = put(&["--dry-bulb=temp_ext", "--direct=i_sol_dir=0.5,element_3.i_sol_dir"]);
    assert_eq!(of(".temp_ext").count(), 9);
    for name in of(".temp_ext") {
        assert_eq!(column(&table, name), ["-1.5", "-0"], "{name}");
    }
    for (place, name) in of(".i_sol_dir").enumerate() {
        let second = if place == 2 { "700" } else { "350" };
        assert_eq!(column(&table, name), ["0", second], "{name}");
    }
    // Elements that were at the external temperature are told, unless all of them are named.
    let said = |columns: &str| {
        let words = ["weather", "w.epw", "t.year", "n.year", "--dry-bulb", columns];
        folder.call(&words).done().lines().nth(2).unwrap().to_string()
    };
    let left = "avg_air_supply_temp, element_1.temp_ext, element_2.temp_ext, element_3.temp_ext, \
                element_8.temp_ext, element_9.temp_ext had the external temperature in every hour and are left";
    assert!(said("temp_ext_air").starts_with(left), "{}", said("temp_ext_air"));
    let rest = said("temp_ext,temp_ext_air");
    assert!(rest.starts_with("avg_air_supply_temp had the external temperature"), "{rest}");
    // With a house its names count, and those of the others no longer.
    let named = put(&["--dry-bulb", "roof.temp_ext", "--head", "terrace.toml"]);
    for name in of(".temp_ext") {
        let changed = column(&named, name) == ["-1.5", "-0"];
        assert_eq!(changed, name == "roof.temp_ext", "{name}");
    }
    let words = ["weather", "w.epw", "t.year", "x.year", "--dry-bulb", "element_1.temp_ext"];
    let errors = "t.year: there is no element_1.temp_ext; the elements are front_wall, back_wall, ";
    folder.call(&[&words[..], &["--head", "terrace.toml"]].concat()).failed(2, errors);
}

/// Hours of other elements than the house has, and hours that the engine refuses for it.
#[test]
fn a_house_judges_the_hours() {
    let folder = house_p("weather_judged");
    folder.call(&["sample", "house"]).done();
    let put =
        |hours: &str, head: &str| folder.call(&["weather", "w.epw", hours, "x", "--head", head]);
    put("p.year", "house/terrace.toml").failed(2, "are not a whole number of hours of 482 bytes");
    let errors = put("p.csv", "house/terrace.toml").errors();
    assert!(errors.contains("element_1 is not an element of the house"), "{errors}");
    let mut year = folder.read("p.year");
    year[HOUR..HOUR + 8].copy_from_slice(&0.0_f64.to_be_bytes());
    folder.write("bad.year", &year);
    let words = "bad.year: hour 2 (1 Jan 01:00): delta_t_h is 0, out of its range 0.001 to 8,760 (refusal 9)";
    put("bad.year", "p.head").failed(1, words);
    let csv = folder.text("p.csv").replacen("\n2,1,", "\n2,0,", 1);
    folder.write("bad.csv", csv.as_bytes());
    put("bad.csv", "p.head").failed(1, "bad.csv:3: delta_t_h is 0, out of its range");
    assert!(!folder.names().contains(&"x".to_string()));
    put("p.csv", "p.head").done();
}

// ---- a whole year ----

#[test]
fn a_leap_year_is_put_into_its_hours_in_one_pass() {
    let folder = Folder::new("weather_leap");
    let number = |i: usize| (((i % 500) as f64 - 90.0) / 10.0).to_string();
    let lines: Vec<String> = (0..8784).map(|i| line(&number(i), "0", "0")).collect();
    folder.write("w.epw", &file(lines.join("\n")));
    let rows: Vec<String> = (0..8784).map(|i| format!("{},0.5\n", i + 1)).collect();
    let table = |rows: &[String]| format!("hour,temp_ext_air\n{}", rows.concat());
    folder.write("h.csv", table(&rows).as_bytes());
    let began = Instant::now();
    let said = folder.call(&["weather", "w.epw", "h.csv", "n.csv"]).done();
    assert!(began.elapsed() < Duration::from_secs(20), "{:?}", began.elapsed());
    assert!(said.starts_with("n.csv: 8,784 hours of h.csv, with") && !said.contains("more line"));
    let new: Vec<String> = (0..8784).map(|i| format!("{},{}\n", i + 1, number(i))).collect();
    assert!(folder.text("n.csv") == table(&new));
    let said = folder.call(&["weather", "w.epw"]).done();
    let expected = "w.epw: 8,784 lines after the eight header lines\n\
                    Dry bulb            lowest -9 °C (line 1), highest 40.9 °C (line 500), mean ";
    assert!(said.starts_with(expected), "{said}");
    // A common year leaves a day, the last and not the 29 February, and a book holds no more than a leap year.
    folder.write("h.csv", table(&rows[..8760]).as_bytes());
    let said = folder.call(&["weather", "w.epw", "h.csv", "n.csv", "--force"]).done();
    let leap = "\nw.epw has 24 more lines, not used\n\
                These are a leap year's lines: if the hours have no 29 February, each from hour 1,417 on has the weather of the day before\n";
    assert!(said.ends_with(leap), "{said}");
    assert!(folder.text("n.csv") == table(&new[..8760]));
    folder.write("h.csv", (table(&rows) + "8785,0.5\n").as_bytes());
    let full = "h.csv: has 8,785 hours, but a book holds at most 8,784 (refusal 17)";
    folder.call(&["weather", "w.epw", "h.csv", "n.csv", "--force"]).failed(1, full);
    assert!(folder.text("n.csv") == table(&new[..8760]));
}
