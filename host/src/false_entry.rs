//! What is wrong with an entry that a take-up found to be false.
use crate::bytes::length_at;
use crate::conditions::bytes_with_rate_twice;
use crate::entry::Entry;
use crate::explain::{sentence, FixedRate, Given, NamedVersion};
use crate::refusal::Reason;
use crate::zone::{Demand, State, Zone};

/// What is wrong with the first false entry of these bytes.
pub(crate) fn false_entry(bytes: &[u8], place: usize) -> String {
    let fault = find_fault(bytes, place).unwrap_or_else(|| "it is not what its hour gives".into());
    format!("entry {place}: {fault}")
}

fn find_fault(bytes: &[u8], place: usize) -> Option<String> {
    let zone = Zone::from_head(bytes).ok()?;
    let mut entries = zone.layout().entries(bytes).map(|entry| Entry::new(&zone, &bytes[entry]));
    let before = match place {
        0 => None,
        _ => Some(entries.nth(place - 1)?),
    };
    let entry = entries.next()?;
    // An unknown version has no length to compare with, and its entry may be short.
    let named = NamedVersion { version: entry.version(), before: before.map(|b| b.version()) };
    if let Some(fault) = named.fault() {
        return Some(format!("its {fault}"));
    }
    let (length, actual) = (length_at(entry.bytes(), 0), entry.bytes().len() - 4);
    if length != actual {
        return Some(format!("its length is {length}, not {actual}"));
    }
    let state = match before {
        None => zone.start_up().ok()?,
        Some(before) => before.state(),
    };
    let conditions = entry.conditions_bytes();
    match zone.hour_step(&state, &*bytes_with_rate_twice(conditions), entry.rule()) {
        Err(refusal) if refusal.reason() == Reason::LimitValue => {
            Some(format!("its {}", refusal.sentence()))
        }
        Err(refusal) => {
            let fixed_rate = FixedRate::StillTaken;
            let given = Given { fixed_rate, ..zone.given(&state, conditions) };
            let fault = sentence(refusal.reason(), refusal.index(), &given);
            Some(format!("its conditions are refused: {fault}"))
        }
        Ok((after, demand, _)) => differing(&entry, &demand, &after),
    }
}

/// The first stored result that is not the calculated one.
fn differing(entry: &Entry, demand: &Demand, after: &State) -> Option<String> {
    let stored = entry.demand();
    let name = if differ(stored.space_heat_demand, demand.space_heat_demand) {
        "heating"
    } else if differ(stored.space_cool_demand, demand.space_cool_demand) {
        "cooling"
    } else if differ(stored.ach_cooling, demand.ach_cooling) {
        "air change rate"
    } else if entry.state() != *after {
        "temperatures"
    } else {
        "trigger rate"
    };
    let verb = if name == "temperatures" { "are" } else { "is" };
    Some(format!("its stored {name} {verb} not what the hour gives"))
}

fn differ(a: f64, b: f64) -> bool {
    a.to_bits() != b.to_bits()
}
