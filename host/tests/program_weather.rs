//! hem-year weather over a weather file alone: the numbers of a line, refusals, the overview and its table.
mod common;
#[path = "common/epw.rs"]
mod epw;

use common::Folder;
use epw::{by_the_rules, file, line, one, sixteen, HEADERS};

/// A folder with a weather file.
fn with(name: &str, file: &[u8]) -> Folder {
    let folder = Folder::new(name);
    folder.write("w.epw", file);
    folder
}

/// The numbers that are printed of a line, as they stand there.
#[track_caller]
fn numbers(folder: &Folder, line: u64) -> [String; 3] {
    let said = folder.call(&["weather", "w.epw", "--line", &line.to_string()]).done();
    let lines: Vec<&str> = said.lines().collect();
    let place = format!("w.epw:{}: line {line} after the headers", line + 8);
    assert_eq!((lines.len(), lines[0]), (4, &*place), "{said}");
    let ends = [("Dry bulb", "°C"), ("Direct normal", "Wh/m²"), ("Diffuse horizontal", "Wh/m²")];
    std::array::from_fn(|place| {
        let (title, unit) = ends[place];
        let rest = lines[place + 1].strip_prefix(title).and_then(|rest| rest.strip_suffix(unit));
        rest.unwrap_or_else(|| panic!("{title} {unit} in {said}")).trim().to_string()
    })
}

#[test]
fn the_numbers_of_a_line_are_printed_in_full() {
    let folder = Folder::new("weather_line");
    for (written, printed) in [
        (["-3.50", "0", "61"], ["-3.5", "0", "61"]),
        (["-0", "-0.0", "-0.00000000000"], ["-0", "-0", "-0"]),
        (["0000000021.3", "0000001999.5", "2000"], ["21.3", "1999.5", "2000"]),
        (["0.00000000001", "1999.99999999", "0.1"], ["0.00000000001", "1999.99999999", "0.1"]),
        (["-100", "100.000000000", "0.30000000000"], ["-100", "100", "0.3"]),
        (["99.9000000001", "1", "2"], ["99.9000000001", "1", "2"]),
    ] {
        let [dry_bulb, direct, diffuse] = written;
        let file = one(dry_bulb, direct, diffuse);
        folder.write("w.epw", &file);
        let said = numbers(&folder, 1);
        assert_eq!(said, printed.map(String::from));
        let bits = said.map(|number| number.parse::<f64>().unwrap().to_bits());
        assert_eq!(Ok(bits), by_the_rules(&file, 1), "{written:?}");
    }
}

#[test]
fn a_refusal_names_file_line_field_and_what_stands_there() {
    let missing = |place| sixteen("1", "2", "3").rsplitn(place, ',').last().unwrap().to_string();
    let long = "8".repeat(60);
    let lines = [
        line("99.9", "9999", "9999"),
        line("21", "9999", "x"),
        line("21", "0", "9999.0"),
        line("warm", "9999", "9999"),
        line("21", "1e2", "0"),
        line("21", "0", " 5"),
        line("", "0", "0"),
        line("1234567890.123", "0", "0"),
        line("-100.1", "0", "0"),
        line("21", "2000.5", "0"),
        line("21", "0", "-1"),
        line(&format!("{long}e"), "0", "0"),
        line("2\u{7}1\u{e9}", "0", "0"),
        missing(2),
        missing(11),
        String::new(),
    ];
    let folder = with("weather_refusals", &file(lines.join("\r\n") + "\r\n"));
    let sentences = [
        "line 1 after the headers: dry_bulb (field 7) is missing (99.9) (refusal 23)",
        "line 2 after the headers: direct_normal (field 15) is missing (9999) (refusal 23)",
        "line 3 after the headers: diffuse_horizontal (field 16) is missing (9999) (refusal 23)",
        "dry_bulb (field 7) is \"warm\", not a decimal (refusal 22)",
        "direct_normal (field 15) is \"1e2\", not a decimal (refusal 22)",
        "diffuse_horizontal (field 16) is \" 5\", not a decimal (refusal 22)",
        "dry_bulb (field 7) is \"\", not a decimal (refusal 22)",
        "dry_bulb (field 7) is \"1234567890.123\", with 13 digits, more than 12 (refusal 22)",
        "dry_bulb (field 7) is -100.1, out of its range -100 to 100 (refusal 22)",
        "direct_normal (field 15) is 2000.5, out of its range 0 to 2,000 (refusal 22)",
        "diffuse_horizontal (field 16) is -1, out of its range 0 to 2,000 (refusal 22)",
        &format!("dry_bulb (field 7) is \"{}…\", not a decimal (refusal 22)", "8".repeat(40)),
        "dry_bulb (field 7) is \"2\\x071\\xc3\\xa9\", not a decimal (refusal 22)",
        "line 14 after the headers: it has 15 fields, and 16 are needed (refusal 21)",
        "line 15 after the headers: it has 6 fields, and 16 are needed (refusal 21)",
        "line 16 after the headers: it has 1 field, and 16 are needed (refusal 21)",
        "there is no line 17 after the eight header lines: the file has 24 lines (refusal 21)",
    ];
    for (place, sentence) in sentences.iter().enumerate() {
        let answer = || folder.call(&["weather", "w.epw", "--line", &(place + 1).to_string()]);
        answer().failed(1, sentence);
        answer().failed(1, &format!("hem-year: w.epw:{}: ", place + 9));
    }
    let none = "w.epw:8: there is no line 0: lines are counted from 1 after the eight header lines";
    folder.call(&["weather", "w.epw", "--line=0"]).failed(1, none);
    let last = u64::MAX.to_string();
    let place = "w.epw:18446744073709551623: there is no line 18446744073709551615 after";
    folder.call(&["weather", "w.epw", "--line", &last]).failed(1, place);
    folder.call(&["weather", "none.epw", "--line", "1"]).failed(2, "none.epw: cannot be read");
    folder.call(&["weather", ".", "--line", "1"]).failed(2, ".: is not a regular file");
}

/// Ends of lines, the byte order mark, and what headers have are nothing to the numbers.
#[test]
fn files_are_read_as_they_are_found() {
    let lines = [line("1.5", "0", "0"), sixteen("-2", "7", "8"), line("3", "9", "10")];
    let plain = HEADERS.to_string() + &lines.join("\n") + "\n";
    let folder = Folder::new("weather_ends");
    for file in [
        plain.clone(),
        plain.replace('\n', "\r\n"),
        plain.trim_end().to_string(),
        plain.replace('\n', "\r\n").trim_end().to_string(),
        plain.replacen('\n', "\r\n", 9),
        format!("\u{feff}{plain}"),
        plain.replacen(HEADERS, &"\n".repeat(8), 1),
        plain.replacen("COMMENTS 2,", "COMMENTS 2,\"a, \"\"b\"\",,,,,,,,,,,,,,,,\r", 1),
    ] {
        folder.write("w.epw", file.as_bytes());
        let all: Vec<[String; 3]> = (1..=3).map(|line| numbers(&folder, line)).collect();
        assert_eq!(all, [["1.5", "0", "0"], ["-2", "7", "8"], ["3", "9", "10"]]);
        let said = folder.call(&["weather", "w.epw"]).done();
        assert!(said.starts_with("w.epw: 3 lines after the eight header lines\n"), "{said}");
        assert!(said.ends_with("\nRefused             none\n"), "{said}");
    }
    // A CR at the end of the file ends no line.
    folder.write("w.epw", &file(sixteen("1", "2", "3") + "\r"));
    folder
        .call(&["weather", "w.epw", "--line=1"])
        .failed(1, "(field 16) is \"3\\r\", not a decimal");
}

/// The first eight lines are headers whatever they hold, but it is said where the last of them is an hour.
#[test]
fn headers_that_are_missing_are_told() {
    let hours = (line("1", "2", "3") + "\r\n").repeat(20);
    let folder = Folder::new("weather_headers");
    folder.write("h.csv", b"temp_ext_air\n0\n");
    let told =
        "w.epw: its eighth line, a header, has the weather of an hour: are headers missing?\n";
    for headers in 0..=8 {
        let headers: String =
            HEADERS.lines().skip(8 - headers).map(|l| l.to_string() + "\n").collect();
        folder.write("w.epw", (headers.clone() + &hours).as_bytes());
        for words in [&["weather", "w.epw"][..], &["weather", "w.epw", "h.csv", "n.csv", "--force"]]
        {
            let said = folder.call(words).done();
            assert_eq!(said.ends_with(told), headers != HEADERS, "{said}");
        }
    }
}

#[test]
fn the_overview_has_extremes_means_and_refusals() {
    let good = |t: &str, direct: &str, diffuse: &str| line(t, direct, diffuse);
    let lines = [
        good("5", "0", "12"),
        good("99.9", "1", "1"),
        good("-7.25", "800.5", "0"),
        good("-7.25", "800.5", "12"),
        good("30.125", "9999", "0"),
        "short".into(),
        good("x", "1", "1"),
        good("30.125", "100", "1234567890123"),
        good("1.25", "99.5", "0.25"),
        "1,2".into(),
    ];
    let folder = with("weather_overview", &file(lines.join("\n")));
    let said = folder.call(&["weather", "w.epw"]).done();
    let expected = "\
w.epw: 10 lines after the eight header lines
Dry bulb            lowest -7.25 °C (line 3), highest 5 °C (line 1), mean -2.06 °C
Direct normal       highest 800.5 Wh/m² (line 3), sum 1.7 kWh/m²
Diffuse horizontal  highest 12 Wh/m² (line 1), sum 0.0 kWh/m²
Refused             6 lines: 2 with 21, 2 with 22, 2 with 23
  w.epw:10: line 2 after the headers: dry_bulb (field 7) is missing (99.9) (refusal 23)
  w.epw:13: line 5 after the headers: direct_normal (field 15) is missing (9999) (refusal 23)
  w.epw:14: line 6 after the headers: it has 1 field, and 16 are needed (refusal 21)
  w.epw:15: line 7 after the headers: dry_bulb (field 7) is \"x\", not a decimal (refusal 22)
  w.epw:16: line 8 after the headers: diffuse_horizontal (field 16) is \"1234567890123\", with 13 digits, \
more than 12 (refusal 22)
";
    assert_eq!(said, expected);
}

#[test]
fn a_file_without_a_line_that_can_be_read_is_refused() {
    let folder = with("weather_nothing", HEADERS.as_bytes());
    let none = "w.epw:9: there is no line 1 after the eight header lines: the file has 8 lines (refusal 21)";
    folder.call(&["weather", "w.epw"]).failed(1, none);
    folder.write("w.epw", b"");
    folder
        .call(&["weather", "w.epw", "--csv", "t.csv"])
        .failed(1, "the file has 0 lines (refusal 21)");
    folder.write("w.epw", &file(line("99.9", "0", "0") + "\nno\n" + &line("99.9", "0", "0")));
    let all = "w.epw:9: line 1 after the headers: dry_bulb (field 7) is missing (99.9) (refusal 23); of 3 \
               lines none is read: 1 with 21, 2 with 23";
    folder.call(&["weather", "w.epw", "--csv", "t.csv"]).failed(1, all);
    // One line, since its ends are of another kind.
    let text = HEADERS.to_string() + &line("1", "2", "3") + "\n";
    folder.write("w.epw", text.replace('\n', "\r").as_bytes());
    let returns = "has 1 line (refusal 21); its lines end with CR alone, and LF or CR LF is needed";
    for words in [&["weather", "w.epw"][..], &["weather", "w.epw", "--line=1"]] {
        folder.call(words).failed(1, returns);
    }
    // Two bytes for each letter.
    let wide: Vec<u8> =
        format!("\u{feff}{text}").encode_utf16().flat_map(u16::to_le_bytes).collect();
    folder.write("w.epw", &wide);
    for words in [&["weather", "w.epw"][..], &["weather", "w.epw", "--line=1"]] {
        folder.call(words).failed(2, "w.epw: is UTF-16 text: it must be saved as UTF-8");
    }
    assert_eq!(folder.names(), ["w.epw"]);
}

// ---- the table ----

#[test]
fn the_table_has_every_line() {
    let lines =
        [line("1.50", "-0", "2000"), line("1", "9999", "x"), line("-0", "0.1", "3"), "".into()];
    let folder = with("weather_table", &file(lines.join("\n") + "\n"));
    let said = folder.call(&["weather", "w.epw", "--csv", "t.csv"]).done();
    assert_eq!(folder.call(&["weather", "w.epw"]).done(), said);
    let table = folder.text("t.csv");
    let (notes, rows): (Vec<&str>, Vec<&str>) = table.lines().partition(|l| l.starts_with('#'));
    assert!(notes[0].starts_with("# hem-year table of weather, hem-year "), "{table}");
    assert_eq!((notes.len(), notes[1]), (3, "# file: w.epw"));
    let sum = folder.shell("sha256sum w.epw | cut -d' ' -f1").done();
    assert_eq!(notes[2], format!("# SHA-256 of file: {}", sum.trim()));
    let expected = [
        "line,dry_bulb,direct_normal,diffuse_horizontal,refused",
        "1,1.5,-0,2000,",
        "2,,,,23",
        "3,-0,0.1,3,",
        "4,,,,21",
    ];
    assert_eq!(rows, expected);
}

#[test]
fn a_table_replaces_only_its_own_kind() {
    let folder = with("weather_table_kinds", &one("1", "2", "3"));
    let epw = folder.read("w.epw");
    let csv = |out: &str, force: &[&str]| {
        folder.call(&[&["weather", "w.epw", "--csv", out], force].concat())
    };
    csv("t.csv", &[]).done();
    let table = folder.read("t.csv");
    folder.write("t.csv", &table[..40]);
    folder.write("empty", b"");
    folder.write("notes", b"# hem-year table of hours, and mine\n");
    csv("t.csv", &[]).done();
    csv("empty", &[]).done();
    csv("notes", &[]).failed(2, "notes: exists and is not a table of weather of hem-year; --force");
    assert_eq!(folder.read("notes"), b"# hem-year table of hours, and mine\n");
    csv("notes", &["--force"]).done();
    assert!(["t.csv", "empty", "notes"].iter().all(|name| folder.read(name) == table));
    for force in [&[][..], &["--force"]] {
        csv("w.epw", force).failed(2, "w.epw: is the weather file, which a table does not replace");
        csv(".", force).failed(2, ".: is a folder");
    }
    assert_eq!(folder.read("w.epw"), epw);
}

#[test]
fn words_that_do_not_fit_are_told() {
    let folder = Folder::new("weather_usage");
    for (words, sentence) in [
        (&["weather"][..], "weather: FILE.epw is missing; see `hem-year help weather`"),
        (&["weather", "a", "b"], "weather: OUT is missing; see `hem-year help weather`"),
        (&["weather", "a", "b", "c", "d"], "weather: \"d\" is one word too many; see"),
        (
            &["weather", "a", "--line", "-1"],
            "weather: --line is \"-1\", which is not a whole number",
        ),
        (&["weather", "a", "--line"], "weather: --line needs a number; see"),
        (
            &["weather", "a", "--line=1", "--csv=b"],
            "weather: --line and --csv exclude each other; see",
        ),
        (
            &["weather", "a", "b", "c", "--dry-bulb"],
            "weather: --dry-bulb needs a list of columns; see",
        ),
        (
            &["weather", "a", "--direct=x"],
            "weather: --direct is of use only with HOURS and OUT; see",
        ),
        (&["weather", "a", "--head=x"], "weather: --head is of use only with HOURS and OUT; see"),
    ] {
        folder.call(words).failed(2, sentence);
    }
    assert!(folder.names().is_empty());
}
