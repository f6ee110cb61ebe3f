//! The house and the hours that a command is given: as text (TOML, CSV) or as bytes.
use crate::calendar::hour_name;
use crate::failure::Failure;
use crate::files;
use crate::words::{count, grouped, hours};
use hem_zone::text::{hour_lines, read_hours, read_house, Faults, Plan};
use hem_zone::{Conditions, Head, Zone, MOST_ENTRIES};
use std::path::Path;

/// Whether bytes are text. A head and conditions never are: they have control characters, such as the
/// head's length and the rate code of an hour.
pub fn is_text(bytes: &[u8]) -> bool {
    let control = |byte: &u8| *byte < b' ' && !matches!(byte, b'\t' | b'\n' | b'\r');
    !bytes.is_empty() && !bytes.iter().any(control)
}

/// The text of a house file.
pub fn utf8<'a>(path: &Path, bytes: &'a [u8]) -> Result<&'a str, Failure> {
    let text = bytes.strip_prefix(b"\xef\xbb\xbf").unwrap_or(bytes);
    std::str::from_utf8(text).map_err(|e| {
        let line = 1 + text[..e.valid_up_to()].iter().filter(|&&b| b == b'\n').count();
        Failure::Refused(format!("{}:{line}: this is not UTF-8 text", path.display()))
    })
}

/// Text that a spreadsheet wrote with two bytes for each letter is told as such.
pub fn must_not_be_utf16(path: &Path, bytes: &[u8]) -> Result<(), Failure> {
    match bytes {
        [0xff, 0xfe, ..] | [0xfe, 0xff, ..] => {
            Err(Failure::file(path, "is UTF-16 text: it must be saved as UTF-8"))
        }
        _ => Ok(()),
    }
}

/// A house: its zone, and what the text of its hours needs to know.
pub struct House {
    pub zone: Zone,
    pub plan: Plan,
}

impl House {
    /// The house of a TOML file or of the bytes of a head.
    pub fn read(path: &Path) -> Result<Self, Failure> {
        let bytes = files::read(path)?;
        must_not_be_utf16(path, &bytes)?;
        match is_text(&bytes) {
            true => Self::of_text(path, utf8(path, &bytes)?),
            false => Self::of_bytes(path, &bytes),
        }
    }

    pub fn of_text(path: &Path, text: &str) -> Result<Self, Failure> {
        let mut faults = Faults::new();
        let house = read_house(&path.display().to_string(), text, &mut faults);
        match (house.head, house.plan) {
            (Some(head), Some(plan)) => {
                let zone = Zone::new(&head).map_err(|r| Failure::refused(path, &r))?;
                Ok(Self { zone, plan })
            }
            _ => Err(Failure::faults(path, &faults)),
        }
    }

    fn of_bytes(path: &Path, bytes: &[u8]) -> Result<Self, Failure> {
        let refused = |r| Failure::refused(path, &r);
        let zone = Zone::from_head(bytes).map_err(refused)?;
        let head = Head::from_bytes(bytes).map_err(refused)?;
        Ok(Self { zone, plan: Plan::of_head(&head) })
    }
}

/// The zone of a house.
pub fn zone(path: &Path) -> Result<Zone, Failure> {
    House::read(path).map(|house| house.zone)
}

/// The conditions of hours, one after the other.
pub struct Year {
    bytes: Vec<u8>,
    size: usize,
    /// The lines on which the hours of a table stand.
    lines: Option<Vec<usize>>,
}

impl Year {
    /// The hours of a file of conditions, at least one and no more than a book holds.
    pub fn read(path: &Path, house: &House) -> Result<Self, Failure> {
        let bytes = files::read(path)?;
        must_not_be_utf16(path, &bytes)?;
        if !is_text(&bytes) {
            return Self::of_bytes(path, bytes, &house.zone);
        }
        let hours = hours_of_text(path, &bytes, Some(house))?.concat();
        let lines = Some(hour_lines(&bytes));
        Ok(Self { lines, ..Self::of_bytes(path, hours, &house.zone)? })
    }

    /// The hours of bytes.
    pub fn of_bytes(path: &Path, bytes: Vec<u8>, zone: &Zone) -> Result<Self, Failure> {
        let year = Self { bytes, size: zone.layout().conditions_len(), lines: None };
        if year.bytes.len() % year.size != 0 {
            let text = format!(
                "has {}, which is not a whole number of hours of {} bytes (a zone of {})",
                count(year.bytes.len(), "byte"),
                year.size,
                count(zone.layout().elements(), "element")
            );
            return Err(Failure::file(path, text));
        }
        must_fit_a_book(path, year.len())?;
        Ok(year)
    }

    /// Number of hours.
    pub fn len(&self) -> usize {
        self.bytes.len() / self.size
    }

    /// The conditions of an hour, from 0.
    pub fn hour(&self, place: usize) -> &[u8] {
        &self.bytes[place * self.size..(place + 1) * self.size]
    }

    /// The conditions of all hours, in order.
    pub fn hours(&self) -> impl Iterator<Item = &[u8]> {
        self.bytes.chunks_exact(self.size)
    }

    /// The lines on which the hours of a table stand.
    pub fn lines(&self) -> Option<&[usize]> {
        self.lines.as_deref()
    }
}

/// At least one hour, and no more than a book holds.
pub fn must_fit_a_book(path: &Path, held: usize) -> Result<(), Failure> {
    match held {
        0 => Err(Failure::file(path, "is empty: there is no hour to calculate")),
        1..=MOST_ENTRIES => Ok(()),
        _ => Err(Failure::Refused(format!(
            "{}: has {}, but a book holds at most {} (refusal 17)",
            path.display(),
            hours(held),
            grouped(MOST_ENTRIES)
        ))),
    }
}

/// The bytes of each hour of a CSV file. Where the house is known, the engine judges each hour too.
pub fn hours_of_text(
    path: &Path,
    text: &[u8],
    house: Option<&House>,
) -> Result<Vec<Vec<u8>>, Failure> {
    let mut faults = Faults::new();
    let file = path.display().to_string();
    let Some(hours) = read_hours(&file, text, house.map(|house| &house.plan), &mut faults) else {
        return Err(Failure::faults(path, &faults));
    };
    let hours: Vec<Vec<u8>> = hours.iter().map(Conditions::to_bytes).collect();
    if let Some(house) = house {
        judge(path, &house.zone, hours.iter().map(Vec::as_slice))?;
    }
    Ok(hours)
}

/// The engine judges the conditions of each hour.
pub fn judge<'a>(
    path: &Path,
    zone: &Zone,
    hours: impl Iterator<Item = &'a [u8]>,
) -> Result<(), Failure> {
    let mut start = 0.0;
    for (place, hour) in hours.enumerate() {
        let hour = Conditions::from_bytes(zone, hour).map_err(|refusal| {
            let name = hour_name(place, start);
            Failure::Refused(format!("{}: {name}: {refusal}", path.display()))
        })?;
        start += hour.delta_t_h;
    }
    Ok(())
}
