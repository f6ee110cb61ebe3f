//! hem-year weather into hours: the sample house, lines that are refused, words that are wrong, and files
//! that are not lost.
mod common;
#[path = "common/epw.rs"]
mod epw;

use common::Folder;
use epw::{file, line, HEADERS};
use std::os::unix::fs::symlink;

/// The table of some hours, and a weather file of these lines.
fn with(name: &str, hours: usize, lines: &[[&str; 3]]) -> Folder {
    let folder = Folder::new(name);
    let rows: String = (1..=hours).map(|hour| format!("{hour},7,3\n")).collect();
    folder.write("h.csv", format!("hour,temp_ext_air,roof.i_sol_dir\n{rows}").as_bytes());
    let lines: Vec<String> = lines.iter().map(|[a, b, c]| line(a, b, c) + "\n").collect();
    folder.write("w.epw", &file(lines.concat()));
    folder
}

const GOOD: [&str; 3] = ["1", "2", "3"];
const MISSING: [&str; 3] = ["99.9", "2", "3"];

const PUT: [&str; 4] = ["weather", "w.epw", "h.csv", "new.csv"];

// ---- the sample house ----

#[test]
fn the_sample_with_its_own_weather_is_the_sample() {
    let folder = Folder::new("weather_sample");
    folder.call(&["sample", "."]).done();
    let columns = ["--dry-bulb", "temp_ext_air,avg_air_supply_temp,temp_ext"];
    let put = |from: &str, to: &str, options: &[&str]| {
        folder.call(&[&["weather", "terrace.epw", from, to], options].concat()).done()
    };
    let said = put("terrace.csv", "same.csv", &columns);
    assert!(folder.read("same.csv") == folder.read("terrace.csv"));
    assert!(
        said.starts_with("same.csv: 8,760 hours of terrace.csv, with the weather of terrace.epw")
    );
    assert!(!said.contains("left as before") && !said.contains("more line"), "{said}");

    // Four days, in other weather: as a table, and as bytes whose elements have the house's names.
    let days = |text: &str| text.lines().take(97).map(|l| l.to_string() + "\n").collect::<String>();
    folder.write("t.csv", days(&folder.text("terrace.csv")).as_bytes());
    let year = folder.read("terrace.year");
    folder.write("t.year", &year[..96 * (year.len() / 8760)]);
    let summer = folder.text("terrace.epw");
    let (headers, lines) = summer.split_at(summer.match_indices('\n').nth(7).unwrap().0 + 1);
    let from = lines.match_indices('\n').nth(4799).unwrap().0 + 1;
    folder.write("terrace.epw", (headers.to_string() + &lines[from..]).as_bytes());
    let sun = ["--direct=roof.i_sol_dir=0.8", "--diffuse", "i_sol_dif,roof.i_sol_dif"];
    let said = put("t.csv", "new.csv", &[&columns[..], &sun, &["--head", "terrace.toml"]].concat());
    assert!(said.ends_with("\nterrace.epw has 3,864 more lines, not used\n"), "{said}");
    let no_faults = folder.call(&["check", "terrace.toml", "new.csv"]).done();
    assert!(no_faults.contains("new.csv: 96 hours\nno faults"), "{no_faults}");
    folder.call(&["run", "terrace.toml", "new.csv", "new.book"]).done();

    folder.call(&["hours", "new.csv", "a.year", "--head", "terrace.toml"]).done();
    // The elements whose outer side is outdoors: the others have columns or constants of their own.
    let outdoors = ["front_wall", "back_wall", "roof", "front_window", "back_window"];
    let each = |value: &str| outdoors.map(|name| format!("{name}.{value}")).join(",");
    let dry_bulb = format!("--dry-bulb=temp_ext_air,avg_air_supply_temp,{}", each("temp_ext"));
    let diffuse = format!("--diffuse={}", each("i_sol_dif"));
    let options = [&dry_bulb, "--direct=roof.i_sol_dir=0.8", &diffuse, "--head", "terrace.toml"];
    let said = put("t.year", "b.year", &options);
    assert!(said.starts_with("b.year: 96 hours of t.year, with"), "{said}");
    assert!(!said.contains("left as before"), "{said}");
    assert_ne!(folder.read("b.year"), folder.read("t.year"));
    folder.call(&["check", "terrace.head", "b.year"]).done();
    assert!(folder.read("b.year") == folder.read("a.year"));
}

// ---- lines that are refused ----

#[test]
fn a_line_that_is_needed_and_refused_leaves_nothing_written() {
    let folder = with("weather_needed", 3, &[GOOD, MISSING, GOOD]);
    let one = "hem-year: w.epw:10: line 2 after the headers: dry_bulb (field 7) is missing (99.9) (refusal 23)";
    folder.call(&PUT).failed(1, one);
    folder.write("w.epw", &file(line("x", "0", "0") + "\n1,2\n" + &line("0", "9999", "0")));
    let answer = folder.call(&PUT);
    assert_eq!((answer.0.status.code(), answer.0.stdout.len()), (Some(1), 0));
    let three = "\
hem-year: w.epw: 3 faults
w.epw:9: line 1 after the headers: dry_bulb (field 7) is \"x\", not a decimal (refusal 22)
w.epw:10: line 2 after the headers: it has 2 fields, and 16 are needed (refusal 21)
w.epw:11: line 3 after the headers: direct_normal (field 15) is missing (9999) (refusal 23)
";
    assert_eq!(answer.errors(), three);
    // Also where the number would not be used.
    folder.write("w.epw", &file([line("1", "2", "9999"), line("1", "2", "3")].join("\n")));
    assert!(folder.call(&PUT).errors().contains("diffuse_horizontal (field 16) is missing (9999)"));
    // Of many the first hundred are told, and how many there are.
    let folder = with("weather_needed_many", 150, &[MISSING; 150]);
    let errors = folder.call(&PUT).errors();
    assert!(errors.starts_with("hem-year: w.epw: 150 faults, the first 100 are listed\n"));
    assert_eq!(errors.lines().count(), 101);
    assert_eq!(folder.names(), ["h.csv", "w.epw"]);
}

#[test]
fn lines_behind_the_hours_are_not_looked_at() {
    let folder = with("weather_behind", 2, &[GOOD, GOOD, MISSING, ["x", "", ""]]);
    let said = folder.call(&PUT).done();
    assert!(said.ends_with("\nw.epw has 2 more lines, not used\n"), "{said}");
    assert_eq!(folder.text("new.csv"), "hour,temp_ext_air,roof.i_sol_dir\n1,1,3\n2,1,3\n");
    let folder = with("weather_behind_one", 1, &[GOOD, MISSING]);
    assert!(folder.call(&PUT).done().ends_with("\nw.epw has 1 more line, not used\n"));
}

#[test]
fn a_weather_file_with_fewer_lines_than_hours_is_refused() {
    let folder = with("weather_fewer", 3, &[GOOD, GOOD]);
    let absent = "hem-year: w.epw:11: there is no line 3 after the eight header lines: the file has 10 lines \
                  (refusal 21); h.csv has 3 hours";
    folder.call(&PUT).failed(1, absent);
    folder.write("w.epw", HEADERS.as_bytes());
    folder
        .call(&PUT)
        .failed(1, "w.epw:9: there is no line 1 after the eight header lines: the file has 8");
    folder.write("w.epw", &file(line("x", "0", "0") + "\n"));
    let errors = folder.call(&PUT).errors();
    assert!(errors.starts_with("hem-year: w.epw: 2 faults\nw.epw:9: line 1 after"), "{errors}");
    assert!(errors.contains("\nw.epw:10: there is no line 2 after the eight"), "{errors}");
    assert_eq!(folder.names(), ["h.csv", "w.epw"]);
}

#[test]
fn a_factor_that_leads_out_of_range_is_told() {
    let folder = with("weather_range", 2, &[["1", "1000", "0"], ["1", "1000.5", "0"]]);
    let put = |factor: &str| {
        folder.call(&[&PUT[..], &["--direct", &format!("roof.i_sol_dir={factor}")]].concat())
    };
    let words = "w.epw:10: line 2 after the headers: roof.i_sol_dir would be 2001, out of its range 0 to 2,000";
    put("2").failed(1, words);
    let far = "w.epw:9: line 1 after the headers: roof.i_sol_dir would be 1e303, out of its range";
    assert!(put("1e300").errors().contains(far), "{}", put("1e300").errors());
    assert!(put("1e308").errors().contains(" would be inf, out of"));
    assert_eq!(folder.names(), ["h.csv", "w.epw"]);
    put("1.9").done();
}

// ---- words ----

#[test]
fn columns_that_are_not_there_or_not_meant_are_named() {
    let folder = with("weather_words", 2, &[GOOD, GOOD]);
    let not_one =
        "is not one of temp_ext_air, avg_air_supply_temp, temp_ext, NAME.temp_ext; see `hem-year";
    for (words, sentence) in [
        (
            &["--dry-bulb", "temp_ext"][..],
            "weather: h.csv: there is no column temp_ext, but temp_ext_air; see",
        ),
        (
            &["--direct=i_sol_dir"],
            "weather: h.csv: there is no column i_sol_dir, but roof.i_sol_dir; see",
        ),
        (
            &["--diffuse=wall.i_sol_dif"],
            "h.csv: there is no column wall.i_sol_dif, nor any other for that",
        ),
        (&["--dry-bulb", "humidity"], &format!("--dry-bulb: \"humidity\" {not_one}")),
        (&["--dry-bulb", "x.temp_ext_air"], &format!("--dry-bulb: \"x.temp_ext_air\" {not_one}")),
        (
            &["--direct=i_sol_dif"],
            "--direct: \"i_sol_dif\" is not one of i_sol_dir, NAME.i_sol_dir; see",
        ),
        (&["--direct=i_sol_dif=2"], "\"i_sol_dif=2\" is not one of i_sol_dir, NAME.i_sol_dir; see"),
        (
            &["--dry-bulb=temp_ext_air=2"],
            "--dry-bulb: temp_ext_air has no factor, since it is a temperature",
        ),
        (
            &["--direct=roof.i_sol_dir=-1"],
            "the factor of roof.i_sol_dir is \"-1\", not a number from 0 on",
        ),
        (
            &["--direct=roof.i_sol_dir="],
            "the factor of roof.i_sol_dir is \"\", not a number from 0 on",
        ),
        (&["--direct=roof.i_sol_dir=1e999"], "is \"1e999\", not a number from 0 on"),
        (&["--direct=roof.i_sol_dir=-0"], "is \"-0\", not a number from 0 on"),
        (&["--direct=roof.i_sol_dir=nan"], "is \"nan\", not a number from 0 on"),
        (
            &["--direct=roof.i_sol_dir=1,5"],
            "--direct: \"5\" is not one of i_sol_dir, NAME.i_sol_dir",
        ),
        (&["--dry-bulb=temp_ext_air,,temp_ext"], "--dry-bulb: a name is empty; see"),
        (&["--dry-bulb=temp_ext_air,"], "--dry-bulb: a name is empty; see"),
        (&["--dry-bulb", "\n"], "--dry-bulb: a name is empty; see"),
        (&["--dry-bulb=temp_ext_air,temp_ext_air"], "--dry-bulb: temp_ext_air is named twice; see"),
        (
            &["--direct=roof.i_sol_dir=1,roof.i_sol_dir"],
            "--direct: roof.i_sol_dir is named twice; see",
        ),
        (&["--line=1"], "weather: --line is of no use with HOURS and OUT; see"),
        (&["--csv=x"], "weather: --csv is of no use with HOURS and OUT; see"),
    ] {
        folder.call(&[&PUT[..], words].concat()).failed(2, sentence);
    }
    assert_eq!(folder.names(), ["h.csv", "w.epw"]);
}

#[test]
fn hours_that_are_none_are_told() {
    let folder = with("weather_no_hours", 2, &[GOOD, GOOD]);
    let put = |hours: &str| {
        folder.write("x", hours.as_bytes());
        folder.call(&["weather", "w.epw", "x", "new"])
    };
    put("# note\n").failed(1, "x:1: there is no heading line");
    put("hour,temp_ext_air\n").failed(1, "x:1: there is no hour below the heading");
    put("\nhour;temp_ext_air\n1;2\n")
        .failed(1, "x:2: the columns are separated by semicolons, where commas");
    put("volume = 195.0\nk_pli = [1, 2]\n")
        .failed(1, "x:1: there is no column that takes weather, as temp_ext_air does");
    put("temp_ext_air,temp_ext_air\n1,2\n").failed(1, "x:1: there are two columns temp_ext_air");
    put("hour,temp_ext_air\n1,2\n\n2\n")
        .failed(1, "x:4: there is 1 field, where the heading has 2");
    let errors = put("a,b,temp_ext_air\n1,2\n3,4,5\n6,7\n").errors();
    assert!(
        errors.starts_with("hem-year: x: 2 faults\nx:2: there are 2 fields, where the"),
        "{errors}"
    );
    // A comma as the decimal sign, which moves all fields behind it.
    put("hour,temp_ext_air\n1,2,5\n").failed(1, "x:2: there are 3 fields, where the heading has 2");
    // Behind a line that was left out each hour would get the weather of the one before it.
    put("hour,temp_ext_air\n7,2\n8,2\n10,2\n").failed(1, "x:4: hour is 10, where 9 is next");
    put("temp_ext_air,hour\n2,1\n2,\n").failed(1, "x:3: hour is empty, not a whole number");
    put("hour,temp_ext_air\n1,\"2\n2,3\n")
        .failed(1, "x:2: temp_ext_air has more than one line: is a quote not closed?");
    put("temp_ext_air,note\n1,\"a\n2,b\n3,c\n")
        .failed(1, "x:2: note has more than one line: is a quote not closed?");
    put("\u{0}").failed(2, "x: is neither a table of hours nor conditions");
    put("").failed(2, "x: is neither a table of hours nor conditions");
    folder.write("x", b"\xff\xfeh\0\n\0");
    folder
        .call(&["weather", "w.epw", "x", "new"])
        .failed(2, "x: is UTF-16 text: it must be saved as UTF-8");
    folder.call(&["weather", "w.epw", "none", "new"]).failed(2, "none: cannot be read");
    folder.call(&["weather", "none", "h.csv", "new"]).failed(2, "none: cannot be read");
    assert_eq!(folder.names(), ["h.csv", "w.epw", "x"]);
}

// ---- files ----

#[test]
fn no_file_is_lost() {
    let folder = Folder::with_house_p("weather_lost", 2);
    folder.write("h.csv", folder.call(&["show", "p.year"]).done().as_bytes());
    folder.write("w.epw", &file(line("1", "2", "3") + "\n" + &line("4", "5", "6") + "\n"));
    folder.write("other.csv", b"hour,temp_ext_air\n1,5\n");
    folder.write("empty", b"");
    symlink("h.csv", folder.path("link")).unwrap();
    let names = folder.names();
    let before: Vec<Vec<u8>> = names.iter().map(|name| folder.read(name)).collect();
    let put = |from: &str, to: &str, more: &[&str]| {
        folder.call(&[&["weather", "w.epw", from, to], more].concat())
    };
    for force in [&[][..], &["--force"]] {
        for target in ["w.epw", "h.csv", "./h.csv", "link"] {
            put("h.csv", target, force).failed(2, "is the file that is read, too");
        }
        put("p.year", "p.head", &[&["--head", "p.head"], force].concat())
            .failed(2, "is the file that is");
        put("h.csv", ".", force).failed(2, ".: is a folder");
        put("h.csv", "none/x", force).failed(2, "none/x: cannot be written");
        put("p.year", "link", force).failed(2, "link: is not a regular file");
    }
    // A table has nothing to tell it from one that was written by hand.
    put("h.csv", "other.csv", &[])
        .failed(2, "other.csv: exists and is not empty; --force replaces it");
    put("p.year", "other.csv", &[])
        .failed(2, "exists and is not a file of conditions; --force replaces it");
    assert_eq!(folder.names(), names);
    assert_eq!(names.iter().map(|name| folder.read(name)).collect::<Vec<_>>(), before);

    put("h.csv", "empty", &[]).done();
    put("h.csv", "empty", &[]).failed(2, "empty: exists and is not empty; --force replaces it");
    put("h.csv", "other.csv", &["--force"]).done();
    put("p.year", "n.year", &[]).done();
    put("p.year", "n.year", &["--dry-bulb=element_1.temp_ext"]).done();
    assert_eq!(folder.read("empty"), folder.read("other.csv"));
    folder.call(&["check", "p.head", "other.csv"]).done();
    folder.call(&["check", "p.head", "n.year"]).done();
}
