//! Refusals of lines of a weather file: number, index and the sentence that says what is wrong and where.
#[path = "common/epw.rs"]
mod epw;
#[path = "common/refused.rs"]
mod refused;

use epw::{file, line, one, sixteen};
use hem_zone::{weather, weather_lines, Reason};
use refused::is;

#[test]
fn n21_line_or_field_absent() {
    let two = file([line("1", "2", "3"), line("1", "2", "3")].join("\n"));
    let sentence = "there is no line 0: lines are counted from 1 after the eight header lines";
    is(weather(&two, 0), 21, 0, sentence);
    let sentence = "there is no line 3 after the eight header lines: the file has 10 lines";
    is(weather(&two, 3), 21, 0, sentence);
    let sentence =
        "there is no line 18446744073709551615 after the eight header lines: the file has 10 lines";
    is(weather(&two, u64::MAX), 21, 0, sentence);
    let sentence = "there is no line 1 after the eight header lines: the file has 1 line";
    is(weather(b"\n", 1), 21, 0, sentence);
    let sentence = "there is no line 1 after the eight header lines: the file has 0 lines";
    is(weather(b"", 1), 21, 0, sentence);
    let year = "\n".repeat(8768);
    let sentence = "there is no line 8761 after the eight header lines: the file has 8,768 lines";
    is(weather(year.as_bytes(), 8761), 21, 0, sentence);
    let sentence = "line 8760 after the headers: it has 1 field, and 16 are needed";
    is(weather(year.as_bytes(), 8760), 21, 0, sentence);
    let sentence = "line 1 after the headers: it has 15 fields, and 16 are needed";
    is(weather(&file(",".repeat(14) + "\r\n"), 1), 21, 0, sentence);
}

#[test]
fn n22_values() {
    let is = |file: Vec<u8>, text: &str| {
        let sentence = format!("line 1 after the headers: {text}");
        is(weather(&file, 1), 22, 0, &sentence);
        // In one pass the same is said.
        is(weather_lines(&file).next().unwrap(), 22, 0, &sentence);
    };
    is(one("12 ", "2", "3"), "dry_bulb (field 7) is \"12 \", not a decimal");
    is(one("1", "", "3"), "direct_normal (field 15) is \"\", not a decimal");
    is(one("1", "2", "1e3"), "diffuse_horizontal (field 16) is \"1e3\", not a decimal");
    is(file(sixteen("1", "2", "3\r")), "diffuse_horizontal (field 16) is \"3\\r\", not a decimal");
    is(one("\u{663}", "2", "3"), "dry_bulb (field 7) is \"\\xd9\\xa3\", not a decimal");
    let long = format!("dry_bulb (field 7) is \"{}…\", not a decimal", "x".repeat(40));
    is(one(&"x".repeat(41), "2", "3"), &long);
    is(
        one("1", "0.0000000000001", "3"),
        "direct_normal (field 15) is \"0.0000000000001\", with 14 digits, more than 12",
    );
    let many =
        format!("dry_bulb (field 7) is \"{}…\", with 1,234 digits, more than 12", "8".repeat(40));
    is(one(&"8".repeat(1234), "2", "3"), &many);
    is(one("-120.5", "2", "3"), "dry_bulb (field 7) is -120.5, out of its range -100 to 100");
    is(one("1", "2000.5", "3"), "direct_normal (field 15) is 2000.5, out of its range 0 to 2,000");
    is(
        one("1", "2", "-00012"),
        "diffuse_horizontal (field 16) is -12, out of its range 0 to 2,000",
    );
    is(
        one("1", "999999999999", "x"),
        "direct_normal (field 15) is 999,999,999,999, out of its range 0 to 2,000",
    );
}

#[test]
fn n23_missing() {
    let good = line("1", "2", "3");
    let lines =
        [good, line("099.90", "9999", "x"), line("-0", "9999.0", "x"), line("1", "2", "9999")];
    let file = file(lines.join("\r\n"));
    let texts = [
        "dry_bulb (field 7) is missing (99.9)",
        "direct_normal (field 15) is missing (9999)",
        "diffuse_horizontal (field 16) is missing (9999)",
    ];
    for ((place, answer), text) in weather_lines(&file).enumerate().skip(1).zip(texts) {
        let (number, sentence) =
            (place as u64 + 1, format!("line {} after the headers: {text}", place + 1));
        is(weather(&file, number), 23, 0, &sentence);
        is(answer, 23, 0, &sentence);
    }
}

#[test]
fn a_refusal_prints_its_number() {
    let refusal = weather(&one("1", "2", "9999"), 1).unwrap_err();
    let sentence = "line 1 after the headers: diffuse_horizontal (field 16) is missing (9999)";
    assert_eq!(refusal.to_string(), format!("{sentence} (refusal 23)"));
    assert_eq!(refusal.reason(), Reason::WeatherMissing);
    assert_eq!(Reason::WeatherMissing.to_string(), "a value of the weather file is missing");
    assert_eq!(Reason::WeatherAbsent as u32, 21);
    assert_eq!(Reason::WeatherInvalid as u32, 22);
}
