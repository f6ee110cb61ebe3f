//! Weather files as they are found, and their lines in one pass: the same as line by line.
#[path = "common/epw.rs"]
mod epw;

use epw::{bits, by_the_rules, file, line, sixteen, HEADERS};
use hem_zone::{weather, weather_lines, Refusal, Weather};

/// What a line holds, by bits, or the number of its refusal.
fn seen(answer: &Result<Weather, Refusal>) -> Result<[u64; 3], u32> {
    match answer {
        Ok(w) => Ok(bits([w.dry_bulb, w.direct_normal, w.diffuse_horizontal])),
        Err(refusal) => Err(refusal.number()),
    }
}

/// The lines of a file in one pass, each of which is what the file answers for its number, refusals by word, and what
/// the rules say. What the file has behind them is absent.
#[track_caller]
fn lines_of(file: &[u8]) -> Vec<Result<Weather, Refusal>> {
    let lines: Vec<_> = weather_lines(file).collect();
    for (place, answer) in lines.iter().enumerate() {
        let number = place as u64 + 1;
        assert_eq!(*answer, weather(file, number), "line {number}");
        assert_eq!(seen(answer), by_the_rules(file, number), "line {number}");
    }
    let behind = weather(file, lines.len() as u64 + 1).unwrap_err();
    assert_eq!(behind.number(), 21);
    let all = file.split_inclusive(|byte| *byte == b'\n').count();
    assert_eq!(lines.len(), all.saturating_sub(8));
    lines
}

fn numbers(lines: &[Result<Weather, Refusal>]) -> Vec<u32> {
    lines.iter().map(|answer| answer.as_ref().err().map_or(0, |refusal| refusal.number())).collect()
}

// ---- a year ----

/// The values of an hour as they are written.
fn texts(hour: usize) -> [String; 3] {
    let day = hour % 24;
    let sun = if (8..18).contains(&day) { hour % 900 } else { 0 };
    let sign = if hour % 5 == 0 { "-" } else { "" };
    [format!("{sign}{}.{}", hour % 31, hour % 10), sun.to_string(), format!("{}", sun / 3)]
}

fn year(hours: usize, end: &str) -> String {
    let one = |hour| {
        let [a, b, c] = texts(hour);
        line(&a, &b, &c) + end
    };
    (0..hours).map(one).collect()
}

#[track_caller]
fn must_be_the_year(file: &[u8], hours: usize) {
    let lines: Vec<_> = weather_lines(file).collect();
    assert_eq!(lines.len(), hours);
    for (hour, answer) in lines.iter().enumerate() {
        let values: [f64; 3] = texts(hour).map(|text| text.parse().unwrap());
        assert_eq!(seen(answer), Ok(bits(values)), "hour {hour}");
    }
    // The call for one line goes through the whole file: some of them.
    for number in [1, 2, 3, 24, hours / 2, hours - 1, hours] {
        assert_eq!(weather(file, number as u64), lines[number - 1], "line {number}");
    }
    assert_eq!(weather(file, hours as u64 + 1).unwrap_err().number(), 21);
}

#[test]
fn years_of_either_line_end() {
    for hours in [8760, 8784] {
        must_be_the_year(&file(year(hours, "\n")), hours);
    }
    let crlf = (HEADERS.to_string() + &year(8760, "\n")).replace('\n', "\r\n");
    must_be_the_year(crlf.as_bytes(), 8760);
    // Headers of one kind, hours of the other; no end behind the last hour.
    must_be_the_year(&file(year(8760, "\r\n")), 8760);
    must_be_the_year(file(year(8760, "\n")).strip_suffix(b"\n").unwrap(), 8760);
    must_be_the_year(crlf.strip_suffix("\r\n").unwrap().as_bytes(), 8760);
}

#[test]
fn headers_of_any_content() {
    let behind = year(30, "\r\n");
    let marked = format!("\u{feff}{HEADERS}{behind}");
    must_be_the_year(marked.as_bytes(), 30);
    let quoted = "\"a,\"\"b\"\",c\",,\"never closed,\n".repeat(8) + &behind;
    must_be_the_year(quoted.as_bytes(), 30);
    let latin = [b"Z\xFCrich,\xB0C,\0\r\n".repeat(8), behind.clone().into_bytes()].concat();
    must_be_the_year(&latin, 30);
    let long = ("x,".repeat(50_000) + "\n").repeat(8) + &behind;
    must_be_the_year(long.as_bytes(), 30);
    // Headers that look like hours are none, and there are eight of them.
    let alike = year(8, "\n").replace("1999", "2001") + &behind;
    must_be_the_year(alike.as_bytes(), 30);
    let seven = format!("{}{behind}", "\n".repeat(7));
    assert_eq!(weather(seven.as_bytes(), 1), weather(&file(&behind), 2));
}

#[test]
fn a_file_is_gone_through_once() {
    // By calls on the whole file this would take hours.
    let line = sixteen("3", "1", "2") + "\n";
    let many = "\n".repeat(8) + &line.repeat(200_000);
    let good = weather_lines(many.as_bytes()).filter(|answer| answer.is_ok()).count();
    assert_eq!(good, 200_000);
}

// ---- lines that are refused ----

#[test]
fn a_refused_line_is_no_end() {
    let lines = [
        line("1", "2", "3"),
        line("99.9", "9999", "9999"),
        line("1", "9999", "3"),
        line("", "2", "3"),
        sixteen("1", "2", "3"),
        sixteen("1", "2", "3").rsplit_once(',').unwrap().0.to_string(),
        String::new(),
        line("1", "2", "2000.1"),
        line("-0", "-0", "-0.0"),
    ];
    let answers = [0, 23, 23, 22, 0, 21, 21, 22, 0];
    for end in ["\n", "\r\n"] {
        assert_eq!(numbers(&lines_of(&file(lines.join(end) + end))), answers);
        assert_eq!(numbers(&lines_of(&file(lines.join(end)))), answers);
    }
    let mut pass = weather_lines(b"");
    assert_eq!((pass.next(), pass.next()), (None, None));
}

#[test]
fn what_stands_behind_the_last_end() {
    let good = sixteen("1", "2", "3");
    for (behind, answers) in [
        ("", vec![0]),
        ("\n", vec![0]),
        ("\r\n", vec![0]),
        ("\r", vec![22]),
        ("\n\n", vec![0, 21]),
        ("\n\r", vec![0, 21]),
        ("\n\r\n", vec![0, 21]),
        ("\n\n\n", vec![0, 21, 21]),
        ("\n\u{1a}", vec![0, 21]),
        ("\n,", vec![0, 21]),
    ] {
        assert_eq!(numbers(&lines_of(&file(format!("{good}{behind}")))), answers, "{behind:?}");
    }
}

// ---- cuts ----

#[test]
fn a_file_cut_at_every_byte() {
    for end in ["\n", "\r\n"] {
        let headers = format!("a,\"b{end}").repeat(8);
        let behind =
            [sixteen("-12.5", "120", "9999"), line("3", "20.25", "1.5"), sixteen("1", "2", "34")];
        let whole = format!("{headers}{}{end}", behind.join(end)).into_bytes();
        let mut met = [0; 24];
        for cut in 0..=whole.len() {
            let lines = lines_of(&whole[..cut]);
            numbers(&lines).iter().for_each(|number| met[*number as usize] += 1);
        }
        assert!([0, 21, 22, 23].iter().all(|number| met[*number] > 3), "{met:?}");
        assert_eq!(numbers(&lines_of(&whole)), [23, 0, 0]);
    }
    // A number that was cut is another number: nothing in the last line says that it was whole.
    let whole = file(sixteen("1", "2", "34"));
    assert_eq!(seen(&weather(&whole[..whole.len() - 1], 1)), Ok(bits([1.0, 2.0, 3.0])));
}

#[test]
fn every_byte_of_a_small_file_is_changed() {
    let lines = format!("{}\n{}", sixteen("12", "3", "4"), line("5", "6", "7"));
    let small = ("\n".repeat(8) + &lines).into_bytes();
    for at in 0..small.len() {
        for byte in *b"\n\r,.-09 \xFF" {
            let mut bytes = small.clone();
            bytes[at] = byte;
            lines_of(&bytes);
            bytes.insert(at, byte);
            lines_of(&bytes);
        }
        let mut shorter = small.clone();
        shorter.remove(at);
        lines_of(&shorter);
    }
}
