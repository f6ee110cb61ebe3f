//! Weather from an EnergyPlus weather file (EPW): the three values of a line that a zone needs.
use crate::explain::Given;
use crate::ffi;
use crate::float;
use crate::refusal::Refusal;
use crate::weather_fault::AskedLine;
use crate::zone::judge;
use std::iter::FusedIterator;

/// The lines that stand before the first hour of a weather file. They are not looked at.
pub(crate) const HEADERS: usize = 8;

/// The weather of an hour, from one line of a weather file.
#[derive(Clone, Copy, Debug, PartialEq)]
pub struct Weather {
    /// Dry bulb temperature, the line's seventh field, °C.
    pub dry_bulb: f64,
    /// Direct normal radiation, its fifteenth field: Wh/m² of the hour, which is its mean in W/m².
    pub direct_normal: f64,
    /// Diffuse horizontal radiation, its sixteenth field, likewise.
    pub diffuse_horizontal: f64,
}

/// The weather of one line of a weather file, counted from 1 after the eight header lines.
///
/// The file is given as bytes, as it was read. Fields stand between commas, and a line ends with LF or CR LF, the
/// last also at the end of the file. A decimal is a minus or none, digits, and perhaps a point with digits after
/// it, 12 digits at most; it becomes the nearest f64, and a minus stays on a zero.
///
/// Refused with 21 where the line or one of its first sixteen fields is absent, even the last. Then the three
/// fields are tested one by one in the order of the file: 22 for one that is no decimal, or of more than 12
/// digits; 23 for a temperature of 99.9 or a radiation of 9999, which mean that the value is missing; 22 for a
/// temperature outside ±100 °C or a radiation outside 0 to 2,000.
///
/// The file is read from its start to the line, so for all lines there is [`weather_lines`].
///
/// ```
/// use hem_zone::{weather, weather_lines, Reason, Weather};
///
/// let mut file = "\n".repeat(8);
/// file += "1999,1,1,1,60,?9,-3.5,,,,,,,,0,0,\r\n";
/// file += "1999,1,1,2,60,?9,99.9,,,,,,,,9999,12,\r\n";
/// let first = weather(file.as_bytes(), 1)?;
/// assert_eq!(first, Weather { dry_bulb: -3.5, direct_normal: 0.0, diffuse_horizontal: 0.0 });
/// let second = weather(file.as_bytes(), 2).unwrap_err();
/// assert_eq!(second.reason(), Reason::WeatherMissing);
/// assert_eq!(second.sentence(), "line 2 after the headers: dry_bulb (field 7) is missing (99.9)");
///
/// let lines: Vec<_> = weather_lines(file.as_bytes()).collect();
/// assert_eq!(lines, [Ok(first), Err(second)]);
/// # Ok::<(), hem_zone::Refusal>(())
/// ```
pub fn weather(file: &[u8], line: u64) -> Result<Weather, Refusal> {
    answered(AskedLine { file, line, number: line })
}

/// The weather of every line of a weather file, line 1 first, each as [`weather`] answers it: a line that is
/// refused is no end. What stands behind the last LF is a line only where it is not empty. The file is gone
/// through once.
pub fn weather_lines(file: &[u8]) -> WeatherLines<'_> {
    let mut rest = file;
    for _ in 0..HEADERS {
        take_line(&mut rest);
    }
    WeatherLines { rest, number: 0, alone: vec![b'\n'; HEADERS] }
}

/// The lines of a weather file, as [`weather_lines`] gives them.
#[derive(Clone, Debug)]
pub struct WeatherLines<'a> {
    /// What is still to be read.
    rest: &'a [u8],
    /// The line read last, counted from 1.
    number: u64,
    /// A file of this line alone: eight empty header lines, and its bytes.
    alone: Vec<u8>,
}

/// The engine reads a file from its start, so it is given a short one for each line: its answer for that is proved
/// to be the one for this line of the whole file.
impl Iterator for WeatherLines<'_> {
    type Item = Result<Weather, Refusal>;

    fn next(&mut self) -> Option<Self::Item> {
        let line = take_line(&mut self.rest)?;
        self.number += 1;
        self.alone.truncate(HEADERS);
        self.alone.extend_from_slice(line);
        Some(answered(AskedLine { file: &self.alone, line: 1, number: self.number }))
    }
}

impl FusedIterator for WeatherLines<'_> {}

/// The first line of what is left, with its LF where it has one, which is then no longer left.
pub(crate) fn take_line<'a>(rest: &mut &'a [u8]) -> Option<&'a [u8]> {
    if rest.is_empty() {
        return None;
    }
    let end = rest.iter().position(|byte| *byte == b'\n').map_or(rest.len(), |at| at + 1);
    let (line, behind) = rest.split_at(end);
    *rest = behind;
    Some(line)
}

/// What the engine answers.
fn answered(asked: AskedLine) -> Result<Weather, Refusal> {
    float::must_be_standard()?;
    let mut values = [0.0; ffi::WEATHER];
    // SAFETY: the file is valid for its length and only read, the array has 3 floats and is borrowed from nowhere
    // else.
    let answer = unsafe {
        ffi::hem_weather(asked.file.as_ptr(), asked.file.len(), asked.line, values.as_mut_ptr())
    };
    judge(answer, &Given { weather: Some(asked), ..Given::default() })?;
    let [dry_bulb, direct_normal, diffuse_horizontal] = values;
    Ok(Weather { dry_bulb, direct_normal, diffuse_horizontal })
}
