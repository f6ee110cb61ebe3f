//! What the engine meant when it refused a line of a weather file. It alone decides; here the field is looked up.
use crate::ranges::{plain, Range, IRRADIANCE, TEMPERATURE};
use crate::refusal::Reason;
use crate::weather::{take_line, HEADERS};

/// A line of a weather file that was asked for.
#[derive(Clone, Copy)]
pub(crate) struct AskedLine<'a> {
    pub(crate) file: &'a [u8],
    /// Its place in these bytes, from 1 after the headers.
    pub(crate) line: u64,
    /// What it is to be called: its place in the file that they were taken from.
    pub(crate) number: u64,
}

/// A field that is read: its name, its place from 1, the value that means missing, and its range.
struct Field {
    name: &'static str,
    place: usize,
    missing: f64,
    range: Range,
}

const FIELDS: [Field; 3] = [
    Field { name: "dry_bulb", place: 7, missing: 99.9, range: TEMPERATURE },
    Field { name: "direct_normal", place: 15, missing: 9999.0, range: IRRADIANCE },
    Field { name: "diffuse_horizontal", place: 16, missing: 9999.0, range: IRRADIANCE },
];
const MOST_DIGITS: usize = 12;
/// So much of a field is shown.
const SHOWN: usize = 40;

/// What is wrong with the line by a refusal for this reason, and where.
pub(crate) fn fault(reason: Reason, asked: AskedLine) -> Option<String> {
    let Some(line) = line_of(asked.file, asked.line) else {
        return Some(no_line(asked));
    };
    let fields = || line.split(|byte| *byte == b',');
    let needed = FIELDS[2].place;
    let text = match reason {
        Reason::WeatherAbsent => {
            format!("it has {}, and {needed} are needed", counted(fields().count(), "field"))
        }
        _ => FIELDS.iter().find_map(|field| field.fault(fields().nth(field.place - 1)?))?,
    };
    Some(format!("line {} after the headers: {text}", asked.number))
}

fn no_line(asked: AskedLine) -> String {
    if asked.number == 0 {
        return "there is no line 0: lines are counted from 1 after the eight header lines".into();
    }
    let (mut rest, mut lines) = (asked.file, 0);
    while take_line(&mut rest).is_some() {
        lines += 1;
    }
    let (number, has) = (asked.number, counted(lines, "line"));
    format!("there is no line {number} after the eight header lines: the file has {has}")
}

fn counted(count: usize, what: &str) -> String {
    let plural = if count == 1 { "" } else { "s" };
    format!("{} {what}{plural}", plain(count as f64))
}

/// A line of a file, from 1 after the headers, without its end.
fn line_of(file: &[u8], number: u64) -> Option<&[u8]> {
    let mut rest = file;
    for _ in 0..number.checked_sub(1)?.saturating_add(HEADERS as u64) {
        take_line(&mut rest)?;
    }
    let line = take_line(&mut rest)?;
    let Some(ended) = line.strip_suffix(b"\n") else { return Some(line) };
    Some(ended.strip_suffix(b"\r").unwrap_or(ended))
}

impl Field {
    /// What is wrong with a field of this text, where something is.
    fn fault(&self, text: &[u8]) -> Option<String> {
        let is = format!("{} (field {}) is", self.name, self.place);
        let Some((digits, value)) = decimal(text) else {
            return Some(format!("{is} {}, not a decimal", quoted(text)));
        };
        if digits > MOST_DIGITS {
            let (text, digits) = (quoted(text), counted(digits, "digit"));
            return Some(format!("{is} {text}, with {digits}, more than {MOST_DIGITS}"));
        }
        if value == self.missing {
            return Some(format!("{is} missing ({})", self.missing));
        }
        let out = !self.range.contains(value);
        out.then(|| format!("{is} {}, out of its range {}", plain(value), self.range))
    }
}

/// The number of digits and the value of a decimal.
fn decimal(text: &[u8]) -> Option<(usize, f64)> {
    let text = std::str::from_utf8(text).ok()?;
    let unsigned = text.strip_prefix('-').unwrap_or(text);
    let (whole, behind) = unsigned.split_once('.').unwrap_or((unsigned, "0"));
    let digits = |part: &str| !part.is_empty() && part.bytes().all(|byte| byte.is_ascii_digit());
    let written = unsigned.bytes().filter(u8::is_ascii_digit).count();
    (digits(whole) && digits(behind)).then_some((written, text.parse().ok()?))
}

/// The text of a field in quotes, what cannot be printed by its code, and cut off where it is long.
fn quoted(text: &[u8]) -> String {
    let (shown, more) = if text.len() > SHOWN { (&text[..SHOWN], "…") } else { (text, "") };
    format!("\"{}{more}\"", shown.escape_ascii())
}

#[cfg(test)]
mod tests {
    use super::*;

    #[test]
    fn a_field_is_quoted_so_that_it_can_be_read() {
        assert_eq!(quoted(b"12 \r"), "\"12 \\r\"");
        assert_eq!(quoted(&[b'1'; 41]), format!("\"{}…\"", "1".repeat(40)));
        assert_eq!(quoted(b"\xEF\""), "\"\\xef\\\"\"");
    }
}
