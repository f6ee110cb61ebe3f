//! What a file is, by how it begins.
use hem_zone::Zone;
use std::fmt;

/// The first bytes of every table that a report writes.
pub const TABLE_MARK: &str = "# hem-year table of hours";
/// The first bytes of every table of a weather file.
pub const WEATHER_TABLE_MARK: &str = "# hem-year table of weather";
/// The first bytes of every drawing that a report writes.
pub const DRAWING_MARK: &str = r#"<svg xmlns="http://www.w3.org/2000/svg" id="hem-year-drawing""#;

/// The kinds of file that are written.
pub enum Kind {
    /// The hours of a book as a table.
    Table,
    /// The lines of a weather file as a table.
    WeatherTable,
    /// The year as a drawing.
    Drawing,
    /// The bytes of a head and no more.
    Head,
    /// The conditions of hours, one after the other.
    Year,
    /// A table of hours. It has nothing to tell it from one that was written by hand, so that only an
    /// empty file is replaced.
    Hours,
    /// A book that begins with this head.
    Book(Vec<u8>),
}

/// More than a head or an hour's conditions have.
const BEGINNING: u64 = 8192;

impl Kind {
    /// How many bytes of a file are enough to tell.
    pub fn looked_at(&self) -> u64 {
        BEGINNING
    }

    /// Whether a file that begins with these bytes is of this kind.
    pub fn accepts(&self, bytes: &[u8]) -> bool {
        match self {
            Kind::Table => bytes.starts_with(TABLE_MARK.as_bytes()),
            Kind::WeatherTable => bytes.starts_with(WEATHER_TABLE_MARK.as_bytes()),
            Kind::Drawing => bytes.starts_with(DRAWING_MARK.as_bytes()),
            Kind::Head => is_head(bytes),
            Kind::Year => (1..=24).any(|elements| is_hour(bytes, elements)),
            Kind::Hours => bytes.is_empty(),
            Kind::Book(head) => bytes.starts_with(head),
        }
    }
}

impl fmt::Display for Kind {
    fn fmt(&self, f: &mut fmt::Formatter) -> fmt::Result {
        f.write_str(match self {
            Kind::Table => "a table of hem-year",
            Kind::WeatherTable => "a table of weather of hem-year",
            Kind::Drawing => "a drawing of hem-year",
            Kind::Head => "a head",
            Kind::Year => "a file of conditions",
            Kind::Hours => "empty",
            Kind::Book(_) => "a book of the same head",
        })
    }
}

/// A head alone: a book begins with one too.
fn is_head(bytes: &[u8]) -> bool {
    Zone::from_head(bytes).is_ok_and(|zone| zone.head().len() == bytes.len())
}

/// Whether bytes begin with conditions of a zone of so many elements: their form, and the ranges of
/// docs/SPECIFICATION.md of some of their values, which no text and no head fulfils by chance.
fn is_hour(bytes: &[u8], elements: usize) -> bool {
    let Some(hour) = bytes.get(..113 + 41 * elements) else { return false };
    let value = |at: usize| f64::from_be_bytes(hour[at..at + 8].try_into().unwrap_or_default());
    let within = |at: usize, low: f64, high: f64| (low..=high).contains(&value(at));
    let common = within(0, 0.001, 8760.0)
        && within(8, -100.0, 100.0)
        && within(32, 0.0, 1.0)
        && within(40, 0.0, 1.0)
        && within(48, -273.15, 100.0)
        && within(72, -100.0, 100.0)
        && hour[96] <= 1;
    common
        && (0..elements).all(|i| {
            let at = 113 + 41 * i;
            within(at, -100.0, 100.0) && within(at + 24, 0.0, 1.0) && hour[at + 40] <= 15
        })
}
