//! The weather of a file put into hours: line 1 into hour 1, and so on.
use crate::failure::Failure;
use crate::files;
use crate::given::Words;
use crate::house::must_be_apart;
use crate::inputs::{self, House};
use crate::kind::Kind;
use crate::output;
use crate::weather::{header_told, place, refused};
use crate::weather_columns::{option, Column, Quantity, Value};
use crate::weather_into_table::HoursTable;
use crate::weather_into_year::HoursYear;
use crate::words::{count, grouped, hours};
use hem_zone::text::{write_number, Faults};
use hem_zone::{weather, weather_lines, Weather};
use std::path::Path;

/// The hours of a year that is no leap year, those before its March, and how many more a leap year has.
const YEAR: usize = 8760;
const BEFORE_MARCH: usize = 1416;
const DAY: usize = 24;

/// The greatest irradiance of an hour, W/m² (docs/SPECIFICATION.md).
const MOST_IRRADIANCE: f64 = 2000.0;

/// What is read, where the weather goes, and the file that is written.
pub struct Put<'a> {
    pub epw: &'a Path,
    pub hours: &'a Path,
    pub out: &'a Path,
    pub columns: Vec<Column>,
    pub house: Option<&'a Path>,
    pub force: bool,
}

/// Hours that take weather: a table, or the bytes of a year.
pub trait Hours {
    fn count(&self) -> usize;
    /// A column that they lack is told.
    fn must_have(&self, column: &Column) -> Result<(), String>;
    /// The temperatures that may take the dry bulb, each with its values, hour by hour.
    fn temperatures(&self) -> Vec<(Column, Vec<Option<f64>>)>;
    /// Whether what is put into a named column is put into the other.
    fn covers(&self, named: &Column, other: &Column) -> bool;
    /// The file with the weather of one line for each hour in these columns.
    fn with(&self, columns: &[Column], weather: &[Weather]) -> Vec<u8>;
    /// The engine's judgement on such a file, for this house.
    fn judge(&self, file: &[u8], house: &House) -> Result<(), Failure>;
    fn kind(&self) -> Kind;
}

pub fn put(words: &Words, given: &Put) -> Result<(), Failure> {
    for input in [Some(given.epw), Some(given.hours), given.house].into_iter().flatten() {
        must_be_apart(input, given.out)?;
    }
    let house = given.house.map(House::read).transpose()?;
    let hours = read(given.hours, house.as_ref())?;
    for column in &given.columns {
        hours
            .must_have(column)
            .map_err(|text| words.wrong(format_args!("{}: {text}", given.hours.display())))?;
    }
    let file = files::read(given.epw)?;
    let (weather, more) = needed(given, &file, hours.count())?;
    let made = hours.with(&given.columns, &weather);
    if let Some(house) = &house {
        hours.judge(&made, house)?;
    }
    output::put(given.out, &hours.kind(), given.force, &made)?;
    let said = said(given, hours.as_ref()) + &unused(given.epw, hours.count(), more);
    files::print(&(said + &header_told(given.epw, &file)))
}

fn read<'a>(path: &'a Path, house: Option<&House>) -> Result<Box<dyn Hours + 'a>, Failure> {
    let bytes = files::read(path)?;
    inputs::must_not_be_utf16(path, &bytes)?;
    Ok(match inputs::is_text(&bytes) {
        true => Box::new(HoursTable::read(path, bytes)?),
        false => Box::new(HoursYear::read(path, &bytes, house)?),
    })
}

/// The weather of a line for each hour, and how many lines stand behind them. Every line that is refused
/// is told, and the first that is absent.
fn needed(given: &Put, file: &[u8], number: usize) -> Result<(Vec<Weather>, usize), Failure> {
    let mut lines = weather_lines(file);
    let (mut found, mut faults) = (Vec::with_capacity(number), Faults::new());
    for line in 1..=number as u64 {
        let place = place(given.epw, line);
        match lines.next() {
            Some(Ok(weather)) => {
                for column in given.columns.iter().filter(|column| !in_range(column, &weather)) {
                    let (name, number) = (column.name(), write_number(column.number(&weather)));
                    let text = format!("{name} would be {number}, out of its range 0 to 2,000");
                    faults.add(&place, format_args!("line {line} after the headers: {text}"));
                }
                found.push(weather);
            }
            Some(Err(refusal)) => faults.add(place, refusal),
            None => {
                let why = weather(file, line).err().map(|refusal| refusal.to_string());
                let needs = format!("{} has {}", given.hours.display(), hours(number));
                faults.add(place, format_args!("{}; {needs}", why.unwrap_or_default()));
                break;
            }
        }
    }
    match faults.is_empty() {
        true => Ok((found, lines.count())),
        false => Err(refused(given.epw, file, Failure::faults(given.epw, &faults).to_string())),
    }
}

/// The engine looks at what stands in the file, and not at what a factor makes of it.
fn in_range(column: &Column, weather: &Weather) -> bool {
    column.factor.is_none() || (0.0..=MOST_IRRADIANCE).contains(&column.number(weather))
}

// ---- what is said ----

fn said(given: &Put, hours_with: &dyn Hours) -> String {
    let mut text = format!(
        "{}: {} of {}, with the weather of {} from line 1 on\n",
        given.out.display(),
        hours(hours_with.count()),
        given.hours.display(),
        given.epw.display()
    );
    for quantity in Quantity::ALL {
        let columns = given.columns.iter().filter(|column| column.quantity == quantity);
        let names: Vec<String> = columns.map(Column::to_string).collect();
        if !names.is_empty() {
            text += &format!("{:20}in {}\n", quantity.title(), names.join(", "));
        }
    }
    text + &left(&given.columns, hours_with)
}

/// Temperatures that were that of the external air in every hour, and are not named.
fn left(named: &[Column], hours: &dyn Hours) -> String {
    let temperatures = hours.temperatures();
    let external = temperatures.iter().find(|(column, _)| column.value == Value::TempExtAir);
    let Some((_, old)) = external else { return String::new() };
    let is_named = |column: &Column| named.iter().any(|named| hours.covers(named, column));
    let known = |values: &[Option<f64>]| values.iter().all(Option::is_some);
    let alike = temperatures
        .iter()
        .filter(|(column, values)| !is_named(column) && known(values) && values == old);
    let names: Vec<String> = alike.map(|(column, _)| column.name()).collect();
    if names.is_empty() {
        return String::new();
    }
    let dry_bulb = named.iter().filter(|column| column.quantity == Quantity::DryBulb);
    let all: Vec<String> = dry_bulb.map(Column::name).chain(names.iter().cloned()).collect();
    let (is, it) = if names.len() == 1 { ("is", "it") } else { ("are", "them") };
    format!(
        "{} had the external temperature in every hour and {is} left as before; `{}` names {it} too\n",
        names.join(", "),
        option(Quantity::DryBulb, &all)
    )
}

/// Lines behind the hours. Of a leap year's file the 29 February is the first of March where the hours have none, and so on.
fn unused(epw: &Path, hours: usize, more: usize) -> String {
    let text = match more {
        0 => String::new(),
        _ => format!("{} has {}, not used\n", epw.display(), count(more, "more line")),
    };
    match (hours, more) {
        (YEAR, DAY) => {
            text + &format!(
                "These are a leap year's lines: if the hours have no 29 February, each from hour {} on has the weather of the day before\n",
                grouped(BEFORE_MARCH + 1)
            )
        }
        _ => text,
    }
}
