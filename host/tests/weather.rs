//! Weather of a line, rule by rule: how a file is split, which line is meant, what a decimal is, what is missing and
//! what is out of range. The order of the refusals is in c_weather.rs, the value of a decimal in weather_decimals.rs.
#[path = "common/epw.rs"]
mod epw;

use epw::{file, line, one, sixteen, HEADERS};
use hem_zone::{weather, Weather};

/// The number of the refusal, 0 where the line is accepted. It never has an index.
fn number(file: &[u8], line: u64) -> u32 {
    weather(file, line).map_or_else(
        |refusal| {
            assert_eq!(refusal.index(), 0);
            refusal.number()
        },
        |_| 0,
    )
}

/// The answer where one field of a line has this text and the others are good.
fn in_each_field(text: &str) -> [u32; 3] {
    [one(text, "1", "2"), one("3", text, "2"), one("3", "1", text)].map(|file| number(&file, 1))
}

fn values(file: &[u8], line: u64) -> [f64; 3] {
    let Weather { dry_bulb, direct_normal, diffuse_horizontal } = weather(file, line).unwrap();
    [dry_bulb, direct_normal, diffuse_horizontal]
}

// ---- lines and fields ----

#[test]
fn the_seventh_fifteenth_and_sixteenth_field_of_the_chosen_line() {
    let lines = [line("-3.5", "120.25", "61"), line("0.0", "0", "1e"), line("21", "2", "3")];
    let file = file(lines.join("\n"));
    assert_eq!(values(&file, 1), [-3.5, 120.25, 61.0]);
    assert_eq!(number(&file, 2), 22);
    assert_eq!(values(&file, 3), [21.0, 2.0, 3.0]);
}

#[test]
fn n84_bytes_commas_and_nothing_else() {
    for text in [
        "\"3\"",
        " 3",
        "3 ",
        "\t3",
        "3\t",
        "3\u{a0}",
        "'3'",
        "3;",
        "3\0",
        "\u{663}",
        "\u{feff}3",
        "3\u{b}",
        "3\u{c}",
    ] {
        assert_eq!(in_each_field(text), [22; 3], "{text:?}");
    }
    // A quoted field is none: the comma in it splits, and the fields behind it are one place further on.
    let quoted = one("3", "1", "2").to_vec();
    let quoted = String::from_utf8(quoted).unwrap().replace("1999,", "\"19,99\",");
    assert_eq!(number(quoted.as_bytes(), 1), 22, "the flags are the seventh field now");
    // The other fields may hold any bytes.
    let mut wild = one("3", "1", "2");
    let start = HEADERS.len();
    wild.splice(start..start + 4, [0, 255, 0xC3, b'"', 0x80, b'\r']);
    assert_eq!(values(&wild, 1), [3.0, 1.0, 2.0]);
}

#[test]
fn n85_lf_or_cr_lf_ends_a_line() {
    let line = sixteen("3", "1", "2");
    for (end, answer) in
        [("\n", 0), ("\r\n", 0), ("", 0), ("\r\r\n", 22), ("\r", 22), ("\n\r", 0), (" \n", 22)]
    {
        assert_eq!(number(&file(format!("{line}{end}")), 1), answer, "{end:?}");
    }
    // A CR without LF is content, wherever it stands.
    assert_eq!(in_each_field("3\r"), [22; 3]);
    assert_eq!(in_each_field("\r3"), [22; 3]);
    assert_eq!(in_each_field("\r"), [22; 3]);
    assert_eq!(number(&file(format!("\r{line}\r\n")), 1), 0, "in the first field");
    assert_eq!(number(&file(format!("{line}\r{line}\n")), 1), 22, "one line of more fields");
    assert_eq!(number(&file(format!("{line}\r{line}\n")), 2), 21);
    // Two lines that end differently, and the second after a CR of its own.
    assert_eq!(values(&file(format!("{line}\r\n{line}")), 2), [3.0, 1.0, 2.0]);
    assert_eq!(values(&file(format!("{line}\n\r{line}\n")), 2), [3.0, 1.0, 2.0]);
}

#[test]
fn n86_lines_are_counted_from_1_after_eight_headers() {
    let line = line("3", "1", "2");
    let two = file(format!("{line}\n{line}\n"));
    for (place, answer) in [(0, 21), (1, 0), (2, 0), (3, 21), (4, 21), (u64::MAX, 21)] {
        assert_eq!(number(&two, place), answer, "line {place}");
    }
    // Headers are any eight lines, and all eight are needed.
    for count in 0..12 {
        let lines = format!("{line}\n").repeat(count);
        for place in 0..6 {
            let answer = if place > 0 && place + 8 <= count as u64 { 0 } else { 21 };
            assert_eq!(number(lines.as_bytes(), place), answer, "line {place} of {count}");
        }
        // Numbers of which a part, or the sum with eight, would be that of a line.
        for place in (0..12).flat_map(|i| [u64::MAX - i, (1 << 32) + i, (1 << 63) + i]) {
            assert_eq!(number(lines.as_bytes(), place), 21, "line {place} of {count}");
        }
    }
    assert_eq!(number(format!("{}{line}", "\n".repeat(8)).as_bytes(), 1), 0);
    assert_eq!(number(format!("{}{line}", "\r\n".repeat(8)).as_bytes(), 1), 0);
    assert_eq!(number(format!("{}{line}", "\r".repeat(8)).as_bytes(), 1), 21);
    for end in ["", "\n", "\n\n", "\n\r\n"] {
        assert_eq!(number(&file(format!("{line}{end}")), 2), 21, "{end:?}");
    }
    assert_eq!(number(&file(format!("\n{line}")), 1), 21, "an empty line is one");
    assert_eq!(number(&file(format!("\n{line}")), 2), 0);
}

#[test]
fn n87_sixteen_fields_are_needed_and_enough() {
    let whole = sixteen("3", "1", "2");
    let fields: Vec<&str> = whole.split(',').collect();
    for count in 1..16 {
        for end in ["", "\n", "\r\n"] {
            let short = fields[..count].join(",") + end;
            assert_eq!(number(&file(short), 1), 21, "{count} fields");
        }
    }
    assert_eq!(values(&file(&whole), 1), [3.0, 1.0, 2.0]);
    assert_eq!(number(&file(format!("{whole},")), 1), 0);
    // An empty field is there, and no decimal.
    assert_eq!(in_each_field(""), [22; 3]);
    assert_eq!(number(&file(sixteen("3", "1", "")), 1), 22);
    assert_eq!(number(&file(",".repeat(15)), 1), 22);
    assert_eq!(number(&file(",".repeat(14)), 1), 21);
    // 21 comes before all else.
    for bad in ["", "x", "99.9", "1234567890123", "101"] {
        let short = sixteen(bad, "9999", "0").rsplit_once(',').unwrap().0.to_string();
        assert_eq!(number(&file(&short), 1), 21, "{short}");
    }
}

// ---- decimals ----

#[test]
fn n88_what_a_decimal_is() {
    for text in ["0", "1", "00", "01", "1.0", "1.50", "0.5", "007.25", "-0", "-0.0", "-00.000"] {
        assert_eq!(in_each_field(text), [0; 3], "{text:?}");
    }
    for text in [
        "+1", "+", "-", "--1", "-+1", "1-", "1-1", ".5", "-.5", "5.", "-5.", ".", "-.", "1.2.3",
        "1..2", "1.-2", "1e1", "1E1", "1e", "1e-1", "1e+1", "0x1", "inf", "nan", "NaN", "1_0",
        "1f", "1/2", "1:2", "*", "a", "1a", "a1", "1.a", "1.5a", "- 1", "1 0", "/1", ":1", "1/",
        "1:", "1./", "1.:",
    ] {
        assert_eq!(in_each_field(text), [22; 3], "{text:?}");
    }
}

#[test]
fn n89_every_digit_counts() {
    for text in [
        "000000000001",
        "00000000.0000",
        "0.00000000001",
        "00000000000.1",
        "1.00000000000",
        "-000000000000",
        "0000000001.0",
    ] {
        assert_eq!(in_each_field(text), [0; 3], "{text}");
    }
    for text in [
        "0000000000001",
        "0000000000000",
        "00000000.00000",
        "0.000000000001",
        "1.000000000000",
        "000000000000.1",
        "-0000000000000",
        "-0.000000000000",
        "00000000000000000000001",
        "18446744073709551617",
        "0.00000000000000000001",
        "340282366920938463463374607431768211457",
    ] {
        assert_eq!(in_each_field(text), [22; 3], "{text}");
    }
    assert_eq!(in_each_field(&"0".repeat(100_000)), [22; 3]);
}

#[test]
fn n90_missing_is_tested_between_digits_and_range() {
    assert_eq!(in_each_field("9999"), [22, 23, 23], "no temperature is so high");
    assert_eq!(in_each_field("99.9"), [23, 0, 0], "a small radiation");
    assert_eq!(in_each_field("99.90000000000"), [22; 3], "thirteen digits");
    assert_eq!(in_each_field("9999.000000000"), [22; 3], "thirteen digits");
    assert_eq!(in_each_field("99.9."), [22; 3]);
    assert_eq!(in_each_field("9999 "), [22; 3]);
}

#[test]
fn n91_missing_goes_by_the_value() {
    for text in ["99.9", "99.90", "099.9", "00000000099.9", "99.9000000000"] {
        assert_eq!(in_each_field(text)[0], 23, "{text}");
    }
    for text in ["9999", "9999.0", "09999", "000000009999", "9999.00000000"] {
        assert_eq!(in_each_field(text), [22, 23, 23], "{text}");
    }
    assert_eq!(in_each_field("-99.9"), [0, 22, 22]);
    assert_eq!(in_each_field("-9999"), [22; 3]);
    for text in ["99.90000000001", "99.89999999999"] {
        assert_eq!(text.len(), 14, "13 digits");
        assert_eq!(in_each_field(text), [22; 3], "{text}");
    }
    for text in ["99.9000000001", "99.8999999999", "100", "99", "99.91", "9.99"] {
        assert_eq!(in_each_field(text), [0; 3], "{text}");
    }
    for text in ["9999.00000001", "9998.99999999", "9998", "9999.5", "99999", "999900", "99990"] {
        assert_eq!(in_each_field(text), [22; 3], "{text}");
    }
}

#[test]
fn n92_ranges() {
    for (text, answers) in [
        ("100", [0, 0, 0]),
        ("-100", [0, 22, 22]),
        ("100.000000000", [0, 0, 0]),
        ("100.000000001", [22, 0, 0]),
        ("100.00000001", [22, 0, 0]),
        ("-100.000000001", [22, 22, 22]),
        ("-99.9999999999", [0, 22, 22]),
        ("2000", [22, 0, 0]),
        ("2000.00000000", [22, 0, 0]),
        ("2000.00000001", [22, 22, 22]),
        ("2000.0000001", [22, 22, 22]),
        ("1999.99999999", [22, 0, 0]),
        ("-0.00000000001", [0, 22, 22]),
        ("-1", [0, 22, 22]),
        ("999999999999", [22, 22, 22]),
        ("-999999999999", [22, 22, 22]),
    ] {
        assert_eq!(in_each_field(text), answers, "{text}");
    }
}

#[test]
fn a_minus_stays_on_a_zero() {
    for (text, zero) in
        [("0", 0.0), ("0.000", 0.0), ("-0", -0.0), ("-0.0", -0.0), ("-00000000000.0", -0.0)]
    {
        let answers = values(&one(text, text, text), 1);
        assert_eq!(epw::bits(answers), epw::bits([zero; 3]), "{text}");
    }
    let mixed = values(&one("-0.0", "0", "-0"), 1);
    assert_eq!(epw::bits(mixed), epw::bits([-0.0, 0.0, -0.0]));
}
