//! Weather in a table of hours: its fields are replaced, and every other byte of the text stays.
use crate::csv_fields::{content, Record, Records};
use crate::failure::Failure;
use crate::inputs::{self, House};
use crate::kind::Kind;
use crate::weather_columns::{Column, Quantity};
use crate::weather_into::Hours;
use hem_zone::text::{read_number, write_number, Faults, HourNumbers};
use hem_zone::Weather;
use std::collections::HashSet;
use std::ops::Range;
use std::path::Path;

pub struct HoursTable<'a> {
    path: &'a Path,
    text: Vec<u8>,
    heading: Vec<String>,
    /// The fields of each hour, at least one for each heading.
    rows: Vec<Vec<Range<usize>>>,
}

impl<'a> HoursTable<'a> {
    pub fn read(path: &'a Path, text: Vec<u8>) -> Result<Self, Failure> {
        let mut records = Records::new(&text);
        let Some(first) = records.next() else {
            return Err(told(path, 1, "there is no heading line"));
        };
        let heading = heading(path, &text, &first)?;
        let rows = rows(path, &text, &heading, records)?;
        if rows.is_empty() {
            return Err(told(path, first.line, "there is no hour below the heading"));
        }
        inputs::must_fit_a_book(path, rows.len())?;
        Ok(Self { path, text, heading, rows })
    }

    /// Where a column stands.
    fn place(&self, column: &Column) -> Option<usize> {
        let name = column.name();
        self.heading.iter().position(|heading| *heading == name)
    }

    /// The columns that may take a quantity.
    fn columns(&self, quantity: Quantity) -> impl Iterator<Item = (usize, Column)> + '_ {
        let headings = self.heading.iter().enumerate();
        headings.filter_map(move |(place, h)| Some((place, Column::of_heading(quantity, h)?)))
    }
}

/// A fault of the table that leaves nothing else to be said.
fn told(path: &Path, line: usize, sentence: impl std::fmt::Display) -> Failure {
    Failure::Refused(format!("{}:{line}: {sentence}", path.display()))
}

/// The names of the columns, as hours are read.
fn heading(path: &Path, text: &[u8], record: &Record) -> Result<Vec<String>, Failure> {
    let name =
        |field: &Range<usize>| String::from_utf8_lossy(&content(&text[field.clone()])).into_owned();
    let names: Vec<String> = record.fields.iter().map(name).collect();
    let fault = |sentence: String| Err(told(path, record.line, sentence));
    if names.len() == 1 && names[0].contains(';') {
        return fault("the columns are separated by semicolons, where commas are needed".into());
    }
    let mut before = HashSet::new();
    if let Some(name) = names.iter().find(|name| !name.is_empty() && !before.insert(*name)) {
        return fault(format!("there are two columns {name}"));
    }
    // What is no table of hours at all would have a fault in each line.
    if !names.iter().any(|name| takes_weather(name)) {
        return fault("there is no column that takes weather, as temp_ext_air does".into());
    }
    Ok(names)
}

/// The fields of each hour. Every line in which something is wrong is told.
fn rows(
    path: &Path,
    text: &[u8],
    heading: &[String],
    records: Records,
) -> Result<Vec<Vec<Range<usize>>>, Failure> {
    let mut check = RowCheck::new(text, heading);
    let (mut rows, mut faults) = (vec![], Faults::new());
    for Record { line, fields } in records {
        // A spreadsheet may leave lines of commas behind.
        if fields.iter().all(|field| check.is_empty(field)) {
            continue;
        }
        for fault in check.faults(&fields) {
            faults.add(format_args!("{}:{line}", path.display()), fault);
        }
        rows.push(fields);
    }
    match faults.is_empty() {
        true => Ok(rows),
        false => Err(Failure::faults(path, &faults)),
    }
}

/// What has to be right in a line, so that no other hour gets its weather and no other text is replaced. Values are
/// not read: those that are replaced may be anything.
struct RowCheck<'a> {
    text: &'a [u8],
    heading: &'a [String],
    numbers: HourNumbers,
}

impl<'a> RowCheck<'a> {
    fn new(text: &'a [u8], heading: &'a [String]) -> Self {
        Self { text, heading, numbers: HourNumbers::default() }
    }

    fn says(&self, field: &Range<usize>) -> Vec<u8> {
        content(&self.text[field.clone()])
    }

    fn is_empty(&self, field: &Range<usize>) -> bool {
        self.says(field).is_empty()
    }

    fn faults(&mut self, fields: &[Range<usize>]) -> Vec<String> {
        let (columns, mut faults) = (self.heading.len(), vec![]);
        // Empty ones behind the last column do no harm.
        let more = fields.iter().skip(columns).any(|field| !self.is_empty(field));
        if fields.len() < columns || more {
            let count = match fields.len() {
                1 => "there is 1 field".into(),
                n => format!("there are {n} fields"),
            };
            faults.push(format!("{count}, where the heading has {columns}"));
        }
        for (name, field) in self.heading.iter().zip(fields) {
            // A line that was left out.
            if name == HourNumbers::HEADING {
                let number = self.says(field);
                faults.extend(self.numbers.fault(&String::from_utf8_lossy(&number)));
            }
            if self.has_lines_of_others(name, field) {
                faults.push(format!("{name} has more than one line: is a quote not closed?"));
            }
        }
        faults
    }

    /// A quote that is not closed makes one field of all lines to the next quote, or to the end of the text. A note
    /// may have several lines, a number of the weather has not.
    fn has_lines_of_others(&self, name: &str, field: &Range<usize>) -> bool {
        let bytes = &self.text[field.clone()];
        let quotes = bytes.iter().filter(|byte| **byte == b'"').count();
        let open = field.end == self.text.len() && bytes.starts_with(b"\"") && quotes % 2 == 1;
        bytes.iter().any(|byte| matches!(byte, b'\n' | b'\r')) && (open || takes_weather(name))
    }
}

/// Whether a column of this name may take a number of a weather file.
fn takes_weather(name: &str) -> bool {
    Quantity::ALL.iter().any(|quantity| Column::of_heading(*quantity, name).is_some())
}

impl Hours for HoursTable<'_> {
    fn count(&self) -> usize {
        self.rows.len()
    }

    fn must_have(&self, column: &Column) -> Result<(), String> {
        let name = column.name();
        let others: Vec<String> = self.columns(column.quantity).map(|(_, c)| c.name()).collect();
        match self.place(column) {
            Some(_) => Ok(()),
            None if others.is_empty() => {
                Err(format!("there is no column {name}, nor any other for that"))
            }
            None => Err(format!("there is no column {name}, but {}", others.join(", "))),
        }
    }

    fn temperatures(&self) -> Vec<(Column, Vec<Option<f64>>)> {
        let value = |field: &Range<usize>| {
            read_number(&String::from_utf8_lossy(&content(&self.text[field.clone()])))
        };
        let values = |place: usize| self.rows.iter().map(|row| value(&row[place])).collect();
        let columns = self.columns(Quantity::DryBulb);
        columns.map(|(place, column)| (column, values(place))).collect()
    }

    fn covers(&self, named: &Column, other: &Column) -> bool {
        named.name() == other.name()
    }

    fn with(&self, columns: &[Column], weather: &[Weather]) -> Vec<u8> {
        let mut places: Vec<(usize, &Column)> =
            columns.iter().filter_map(|column| Some((self.place(column)?, column))).collect();
        places.sort_by_key(|(place, _)| *place);
        let (mut made, mut copied) = (Vec::with_capacity(self.text.len()), 0);
        for (row, weather) in self.rows.iter().zip(weather) {
            for (place, column) in &places {
                let field = &row[*place];
                made.extend_from_slice(&self.text[copied..field.start]);
                made.extend_from_slice(write_number(column.number(weather)).as_bytes());
                copied = field.end;
            }
        }
        made.extend_from_slice(&self.text[copied..]);
        made
    }

    fn judge(&self, file: &[u8], house: &House) -> Result<(), Failure> {
        inputs::hours_of_text(self.path, file, Some(house)).map(|_| ())
    }

    fn kind(&self) -> Kind {
        Kind::Hours
    }
}
