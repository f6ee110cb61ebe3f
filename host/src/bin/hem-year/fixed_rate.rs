//! Hours with a fixed rate: `ach_cooling` in a table, rate code 0 in bytes. It is retired: a book may hold such hours,
//! but takes no more of them. With the rate for windows open and closed they are the same hours.
use crate::calendar::hour_name;
use crate::failure::Failure;
use crate::inputs::Year;
use hem_zone::text::{write_number, Faults};
use hem_zone::{bytes_with_rate_twice, fixed_rate, Book, ENTRY_VERSION_1};
use std::path::Path;

/// What hours are given as.
#[derive(Clone, Copy)]
pub enum Form {
    Table,
    Bytes,
}

impl Form {
    /// Only hours of a table have lines.
    pub fn of(lines: Option<&[usize]>) -> Self {
        match lines {
            Some(_) => Form::Table,
            None => Form::Bytes,
        }
    }

    /// A fixed rate, as it is written.
    fn fixed(self) -> &'static str {
        match self {
            Form::Table => "ach_cooling",
            Form::Bytes => "rate code 0",
        }
    }

    /// A rate for windows open and closed.
    fn one_rate(self, rate: f64) -> String {
        let rate = write_number(rate);
        match self {
            Form::Table => format!("rate = {rate}"),
            Form::Bytes => format!("rate code 1 with {rate} twice"),
        }
    }
}

// ---- hours that are to be calculated ----

/// What is said of an hour that has a fixed rate, and how the same hour is written.
pub fn fault(hour: &[u8], form: Form) -> Option<String> {
    let rate = fixed_rate(hour)?;
    let (fixed, one_rate) = (form.fixed(), form.one_rate(rate));
    Some(format!(
        "its rate is fixed ({fixed}), which is retired; {one_rate} is the same hour (refusal 8)"
    ))
}

/// Tells of the hours with a fixed rate, from a place on; hours of a table have lines.
pub fn tell<'a>(
    path: &Path,
    hours: impl Iterator<Item = &'a [u8]>,
    lines: Option<&[usize]>,
    from: usize,
    faults: &mut Faults,
) {
    let (file, form) = (path.display(), Form::of(lines));
    let mut start = 0.0;
    for (place, hour) in hours.enumerate() {
        if let Some(fault) = fault(hour, form).filter(|_| place >= from) {
            let name = hour_name(place, start);
            match lines.and_then(|lines| lines.get(place)) {
                Some(line) => faults.add(format_args!("{file}:{line}: {name}"), fault),
                None => faults.add(format_args!("{file}: {name}"), fault),
            }
        }
        start += f64::from_be_bytes(hour[..8].try_into().unwrap_or_default());
    }
}

/// How all hours of a table get such a rate.
pub const RENAME: &str = "to rename ach_cooling to rate is enough";

/// Said of a book to which nothing is appended.
pub const LEFT: &str = "the book is left as it is";

/// The book that hours are to be appended to.
pub struct Held<'a> {
    book: &'a Path,
    /// How many hours it holds; none where there is no book yet.
    hours: Option<usize>,
    /// A book with hours of version 1 is not converted.
    has_version_1: bool,
}

impl<'a> Held<'a> {
    /// No book yet.
    pub fn nothing(book: &'a Path) -> Self {
        Self { book, hours: None, has_version_1: false }
    }

    /// The hours that a book holds.
    pub fn of(path: &'a Path, book: &Book) -> Self {
        let has_version_1 = book.entries().any(|entry| entry.version() == ENTRY_VERSION_1);
        Self { book: path, hours: Some(book.hours()), has_version_1 }
    }

    /// No hour that is not held has a fixed rate.
    pub fn others_must_have_none(&self, path: &Path, year: &Year) -> Result<(), Failure> {
        let mut faults = Faults::new();
        tell(path, year.hours(), year.lines(), self.hours.unwrap_or(0), &mut faults);
        let book = match self.hours {
            Some(_) => LEFT,
            None => "no book is begun",
        };
        Err(Failure::Refused(match faults.count() {
            0 => return Ok(()),
            1 => format!("{}; {book}", faults.to_string().trim_end()),
            _ => {
                let (file, number, way) = (path.display(), faults.number(), self.way(year));
                format!("{file}: {number}{way}; {book}\n{faults}").trim_end().into()
            }
        }))
    }

    /// How the year of a table can go on.
    fn way(&self, year: &Year) -> String {
        let mut held = year.hours().take(self.hours.unwrap_or(0));
        match (Form::of(year.lines()), held.any(|hour| fixed_rate(hour).is_some())) {
            (Form::Bytes, _) => String::new(),
            (Form::Table, false) => format!("; {RENAME}"),
            (Form::Table, true) if self.has_version_1 => {
                "; the hours that are held keep ach_cooling".into()
            }
            (Form::Table, true) => format!(
                "; {RENAME}, once the book is converted by `hem-year convert {} NEW`",
                self.book.display()
            ),
        }
    }
}

// ---- hours that a book holds ----

/// What is said where an hour that is held and one that is given are the same but for a fixed rate in one of them.
pub fn differ(held: &[u8], given: &[u8], form: Form) -> Option<Differ> {
    match (fixed_rate(held), fixed_rate(given)) {
        (Some(rate), None) if bytes_with_rate_twice(held) == given => {
            Some(Differ { of_book: true, rate, form })
        }
        (None, Some(rate)) if bytes_with_rate_twice(given) == held => {
            Some(Differ { of_book: false, rate, form })
        }
        _ => None,
    }
}

/// The fixed rate of an hour that has that rate twice at its other place.
pub struct Differ {
    /// Whether the book has the fixed rate, or the hours that are given.
    of_book: bool,
    rate: f64,
    form: Form,
}

impl Differ {
    /// What is to be done.
    pub fn sentence(&self, held: &Held, given: &Path) -> String {
        let (book, given) = (held.book.display(), given.display());
        let (fixed, one_rate) = (self.form.fixed(), self.form.one_rate(self.rate));
        match (self.of_book, held.has_version_1) {
            (true, false) => format!(
                "has a fixed rate in the book, where {given} has {one_rate}, which is the same hour; `hem-year convert \
                 {book} NEW` writes all such hours of the book anew"
            ),
            (true, true) => format!(
                "has a fixed rate in the book, where {given} has {one_rate}, which is the same hour; a book with hours \
                 of version 1 is not converted, so that {given} has to keep {fixed} for the hours that are held"
            ),
            (false, _) => format!(
                "has a fixed rate ({fixed}) in {given}, where the book has the rate for windows open and closed, which \
                 is the same hour; in {given} it has to be {one_rate}"
            ),
        }
    }
}

#[cfg(test)]
mod tests {
    use super::*;
    use hem_zone::samples::hour_p;
    use hem_zone::{AirChangesPerHour, Conditions};

    #[test]
    fn an_hour_with_its_rate_twice() {
        for rate in [0.45, 0.0, -0.0, 1000.0] {
            let ach = AirChangesPerHour::Cooling { ach_cooling: rate };
            let hour = Conditions { ach, ..hour_p(20.0, 24.0) };
            let (bytes, twice) = (hour.to_bytes(), hour.with_rate_twice().to_bytes());
            assert_eq!(fixed_rate(&bytes).map(f64::to_bits), Some(rate.to_bits()));
            assert_eq!((fixed_rate(&twice), &*bytes_with_rate_twice(&bytes)), (None, &twice[..]));
            let differs = |held: &[u8], given: &[u8]| {
                differ(held, given, Form::Bytes).map(|differ| differ.of_book)
            };
            assert_eq!(differs(&bytes, &twice), Some(true));
            assert_eq!(differs(&twice, &bytes), Some(false));
            assert_eq!((differs(&bytes, &bytes), differs(&twice, &twice)), (None, None));
            // Another value as well is another hour.
            let other = Conditions { temp_ext_air: 1.0, ..hour.with_rate_twice() }.to_bytes();
            assert_eq!((differs(&bytes, &other), differs(&other, &bytes)), (None, None));
            let mut bad = bytes.clone();
            bad[112] = 1;
            assert_eq!((fixed_rate(&bad), differs(&bad, &twice)), (None, None));
        }
    }
}
