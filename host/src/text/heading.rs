//! The heading line of a table of hours.
use super::faults::Faults;
use super::hour_numbers::HourNumbers;
use super::plan::Plan;
use super::what::{hint, Key, What};
use csv::ByteRecord;

/// What a column holds.
#[derive(Clone, Copy, Debug, PartialEq)]
pub(crate) enum Column {
    Value(Key),
    /// The number of the hour, which goes up by one from line to line.
    Number,
    /// A time, which is not read, or a column that was told to be unknown.
    Ignored,
    /// One without a heading, which a spreadsheet may leave behind: nothing may stand in it.
    Empty,
}

pub(crate) const NUMBER: &str = HourNumbers::HEADING;
const TIME: &str = "time";

/// A column with its heading.
pub(crate) struct Headed {
    pub(crate) name: String,
    pub(crate) column: Column,
}

/// The columns of a heading line. Without a plan the elements are those that have a column, in the
/// order of their first ones.
pub(crate) fn read_heading(
    place: &str,
    record: &ByteRecord,
    plan: &mut Option<Plan>,
    faults: &mut Faults,
) -> Option<Vec<Headed>> {
    let fields: Vec<String> =
        record.iter().map(|f| String::from_utf8_lossy(f).into_owned()).collect();
    if let [one] = fields.as_slice() {
        if one.contains(';') {
            faults.add(place, "the columns are separated by semicolons, where commas are needed");
            return None;
        }
    }
    let plan = plan.get_or_insert_with(|| Plan::of_names(names_in(&fields)));
    let mut columns: Vec<Headed> = vec![];
    for name in fields {
        if !name.is_empty() && columns.iter().any(|other| other.name == name) {
            faults.add(place, format_args!("there are two columns {name}"));
        }
        let column = column_of(&name, &plan.names).unwrap_or_else(|text| {
            faults.add(place, text);
            Column::Ignored
        });
        columns.push(Headed { name, column });
    }
    Some(columns)
}

/// The name of an element and its value, where a heading is of that form. The name may have points too.
fn split(heading: &str) -> Option<(&str, What)> {
    let (name, value) = heading.rsplit_once('.')?;
    let what = What::of_name(value).filter(|what| what.of_element())?;
    Some((name, what))
}

fn names_in(headings: &[String]) -> Vec<String> {
    let mut names: Vec<String> = vec![];
    for (name, _) in headings.iter().filter_map(|heading| split(heading)) {
        if !names.iter().any(|known| known == name) {
            names.push(name.to_string());
        }
    }
    names
}

fn column_of(heading: &str, names: &[String]) -> Result<Column, String> {
    if let Some(what) = What::of_name(heading) {
        return Ok(Column::Value(Key { what, element: None }));
    }
    match (heading, split(heading)) {
        ("", _) => Ok(Column::Empty),
        (NUMBER, _) => Ok(Column::Number),
        (TIME, _) => Ok(Column::Ignored),
        (_, Some((name, what))) => match names.iter().position(|known| known == name) {
            Some(element) => Ok(Column::Value(Key { what, element: Some(element) })),
            None => Err(unknown_element(heading, name, names)),
        },
        _ => Err(unknown(heading)),
    }
}

fn unknown_element(heading: &str, name: &str, names: &[String]) -> String {
    let hint = hint(name, names.iter().map(String::as_str));
    format!("the column {heading}: {name} is not an element of the house{hint}")
}

fn unknown(heading: &str) -> String {
    let (value, known): (&str, Vec<What>) = match heading.rsplit_once('.') {
        Some((_, value)) => (value, What::all_of_element().collect()),
        None => (heading, What::all().collect()),
    };
    let hint = hint(value, known.into_iter().map(What::name).chain([NUMBER, TIME]));
    format!("the column {heading} is not known{hint}")
}
