//! Weather files to try things with, and what the rules say of their lines.
#![allow(dead_code)] // Each file of tests uses a part of this.
use std::ops::RangeInclusive;

/// Header lines as they are found, with commas and quotes. None of this is looked at.
pub const HEADERS: &str = "\
LOCATION,Sample \"Town, North\",ENG,GBR,IWEC Data,037760,51.15,-0.18,0.0,62.0
DESIGN CONDITIONS,1,Climate Design Data 2009 ASHRAE Handbook,,Heating,1,-5.1,-3.6,Cooling,8,9.4
TYPICAL/EXTREME PERIODS,2,Summer - Week Nearest Max Temperature,Extreme,7/13,7/19,Winter,Typical,1/6,1/12
GROUND TEMPERATURES,3,.5,,,,5.61,4.16,4.70,6.41,10.92,14.64,17.00,17.35,15.75,12.81,9.08,5.38
HOLIDAYS/DAYLIGHT SAVINGS,No,0,0,0
COMMENTS 1,\"Custom, \"\"hand made\"\"\", 99.9,9999,,,,,,,,,,,,,,
COMMENTS 2,
DATA PERIODS,1,1,Data,Friday, 1/ 1,12/31
";

/// A line of 35 fields without its end: these three, and beside them values that could be taken for them.
pub fn line(dry_bulb: &str, direct_normal: &str, diffuse_horizontal: &str) -> String {
    format!(
        "1999,1,1,1,60,?9?9?9E0,{dry_bulb},5.6,93,101300,0,0,290,333,{direct_normal},{diffuse_horizontal},\
         44,45,46,47,220,3.1,10,8,20.1,22000,9,999999999,159,0.2150,0,88,0.000,0.0,0.0"
    )
}

/// The headers, and behind them these bytes.
pub fn file(behind: impl AsRef<[u8]>) -> Vec<u8> {
    [HEADERS.as_bytes(), behind.as_ref()].concat()
}

/// A file of one line, with these three fields.
pub fn one(dry_bulb: &str, direct_normal: &str, diffuse_horizontal: &str) -> Vec<u8> {
    file(line(dry_bulb, direct_normal, diffuse_horizontal) + "\n")
}

/// A line's sixteen first fields, of which the last ends the line.
pub fn sixteen(dry_bulb: &str, direct_normal: &str, diffuse_horizontal: &str) -> String {
    format!("1999,1,1,1,60,?9,{dry_bulb},5.6,93,101300,0,0,290,333,{direct_normal},{diffuse_horizontal}")
}

/// The bits of floats, by which zeros of both signs are told apart.
pub fn bits(values: [f64; 3]) -> [u64; 3] {
    values.map(f64::to_bits)
}

// ---- the rules, in the plainest way ----

/// What a line of a file must answer: the bits of its three numbers, or the number of the refusal.
pub fn by_the_rules(file: &[u8], line: u64) -> Result<[u64; 3], u32> {
    let place = usize::try_from(line).ok().filter(|line| *line > 0).ok_or(21_u32)?;
    let lines = lines(file);
    let line = lines.get(place.saturating_add(7)).ok_or(21_u32)?;
    let fields: Vec<&[u8]> = line.split(|byte| *byte == b',').collect();
    if fields.len() < 16 {
        return Err(21);
    }
    let dry_bulb = value(fields[6], 99.9, -100.0..=100.0)?;
    let direct_normal = value(fields[14], 9999.0, 0.0..=2000.0)?;
    let diffuse_horizontal = value(fields[15], 9999.0, 0.0..=2000.0)?;
    Ok(bits([dry_bulb, direct_normal, diffuse_horizontal]))
}

/// All lines without their ends, what stands behind the last LF too.
fn lines(file: &[u8]) -> Vec<&[u8]> {
    let mut lines: Vec<&[u8]> = file.split(|byte| *byte == b'\n').collect();
    let ended = lines.len() - 1;
    for line in &mut lines[..ended] {
        *line = line.strip_suffix(b"\r").unwrap_or(line);
    }
    lines
}

fn value(text: &[u8], missing: f64, range: RangeInclusive<f64>) -> Result<f64, u32> {
    let text = std::str::from_utf8(text).map_err(|_| 22_u32)?;
    let parts: Vec<&str> = text.strip_prefix('-').unwrap_or(text).split('.').collect();
    let digits = |part: &&str| !part.is_empty() && part.bytes().all(|byte| byte.is_ascii_digit());
    if parts.len() > 2 || !parts.iter().all(digits) || parts.concat().len() > 12 {
        return Err(22);
    }
    match text.parse::<f64>().unwrap() {
        value if value == missing => Err(23),
        value if !range.contains(&value) => Err(22),
        value => Ok(value),
    }
}
