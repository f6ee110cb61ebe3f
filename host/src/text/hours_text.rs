//! Writing a table of hours.
use super::heading::NUMBER;
use super::number::{cell, short};
use super::open::words;
use super::plan::Plan;
use super::rates::{written, FIXED};
use super::what::{Key, What};
use crate::conditions::{AirChangesPerHour, Conditions};
use crate::entry::Entry;
use crate::limits::HeldLimit;
use csv::Writer;

/// The CSV text of hours, every value in a column of its own. The first has this number. There is a column for a
/// fixed rate only where an hour has one.
pub fn write_hours(hours: &[Conditions], plan: &Plan, first: usize) -> String {
    let fixed = hours.iter().any(|hour| matches!(hour.ach, AirChangesPerHour::Cooling { .. }));
    write_columns(hours, plan, &all_columns(plan, fixed), first)
}

fn all_columns(plan: &Plan, fixed: bool) -> Vec<Key> {
    let of_hour = What::all().filter(|what| !what.of_element());
    let of_hour = of_hour.filter(|what| fixed || *what != What::Rate(FIXED));
    let mut keys: Vec<Key> = of_hour.map(|what| Key { what, element: None }).collect();
    for element in 0..plan.names.len() {
        for what in What::all_of_element() {
            // An element without treatments has none to open.
            if what != What::Open || plan.treatments_of(element) != Some(0) {
                keys.push(Key { what, element: Some(element) });
            }
        }
    }
    keys
}

/// The CSV text of hours with these columns, after the number of the hour.
pub(crate) fn write_columns(
    hours: &[Conditions],
    plan: &Plan,
    columns: &[Key],
    first: usize,
) -> String {
    let headings = columns.iter().map(|key| key.heading(&plan.names));
    let mut table = Writer::from_writer(vec![]);
    let mut write = |row: Vec<String>| {
        // Memory takes every write, and all rows have the same length.
        let _ = table.write_record(row);
    };
    write([NUMBER.to_string()].into_iter().chain(headings).collect());
    for (number, hour) in hours.iter().enumerate() {
        let cells = columns.iter().map(|key| cell_of(hour, *key));
        write([(first + number).to_string()].into_iter().chain(cells).collect());
    }
    let bytes = table.into_inner().unwrap_or_default();
    String::from_utf8_lossy(&bytes).into_owned()
}

/// A value of an hour as its cell has it.
fn cell_of(hour: &Conditions, key: Key) -> String {
    // A column of all elements has what each of them has.
    let element = || hour.elements.get(key.element.unwrap_or(0));
    let value = match key.what {
        What::Hour(place) => Some(hour.values()[place]),
        What::Rate(place) => written(&hour.ach)[place],
        What::Element(place) => element().map(|element| element.values()[place]),
        What::Open => return element().map_or(String::new(), |element| words(element.open)),
    };
    match (key.what.named(), value) {
        (Some(named), Some(value)) => cell(named, value),
        _ => String::new(),
    }
}

/// The version of an hour of a book and what the hour led to, a comment line for each value.
pub fn results_text(entry: &Entry) -> String {
    let demand = entry.demand();
    let trigger = match demand.ach_to_trigger_heating {
        Some(rate) => format!("{} per hour", short(rate)),
        None => "none".into(),
    };
    let (air, operative) = (entry.state().temp_internal_air(), entry.temp_operative());
    let lines = [
        ("space_heat_demand", format!("{} kWh", short(demand.space_heat_demand))),
        ("space_cool_demand", format!("{} kWh", short(demand.space_cool_demand))),
        ("ach_cooling", format!("{} per hour, the chosen rate", short(demand.ach_cooling))),
        ("ach_to_trigger_heating", trigger),
        ("temp_internal_air", format!("{} °C after the hour", short(air))),
        ("temp_operative", format!("{} °C after the hour", short(operative))),
    ];
    let version = ("entry_version", entry.version().to_string());
    let lines = [version].into_iter().chain(plant_lines(entry)).chain(lines);
    lines.map(|(name, value)| format!("# {name} = {value}\n")).collect()
}

/// The limits of an hour that has them, and the power that was delivered.
fn plant_lines(entry: &Entry) -> Vec<(&'static str, String)> {
    let Some(limits) = entry.limits() else { return vec![] };
    let held = match entry.held_limit() {
        Some(HeldLimit::Heating) => ": the heating limit held",
        Some(HeldLimit::Cooling) => ": the cooling limit held",
        None => "",
    };
    vec![
        ("heating_limit", format!("{} W", short(limits.heating))),
        ("cooling_limit", format!("{} W", short(limits.cooling))),
        // −0 + 0 is 0: no cooling is no power.
        ("delivered", format!("{} W{held}", short(entry.delivered() + 0.0))),
    ]
}
