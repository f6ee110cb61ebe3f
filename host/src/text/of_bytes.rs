//! All that is wrong with the bytes of a head or of an hour, where a refusal names the first.
use crate::conditions::{fixed_rate, Conditions, ElementHour, COMMON_SIZE, RATE_CODE};
use crate::refusal::Refusal;
use crate::values::{conditions_values, head_values, Value};
use crate::zone::Zone;

/// What is wrong with the bytes of a head, a sentence each.
pub fn head_faults(head: &[u8]) -> Vec<String> {
    match Zone::from_head(head) {
        Ok(_) => vec![],
        // The form is good, so that every value can be looked at.
        Err(refusal) if refusal.number() == 5 => out_of_range(&head_values(head), &refusal),
        Err(refusal) => vec![refusal.sentence().to_string()],
    }
}

/// What is wrong with the bytes of an hour's conditions for a zone, a sentence each.
pub fn conditions_faults(zone: &Zone, conditions: &[u8]) -> Vec<String> {
    match Conditions::from_bytes(zone, conditions) {
        Ok(_) => vec![],
        Err(refusal) if refusal.number() == 9 => {
            out_of_range(&conditions_values(conditions), &refusal)
        }
        Err(refusal) => vec![refusal.sentence().to_string()],
    }
}

fn out_of_range(values: &[Value], refusal: &Refusal) -> Vec<String> {
    let bad = values.iter().filter(|value| !value.range.contains(value.value));
    let sentences: Vec<String> = bad.map(Value::sentence).collect();
    // The engine decides. Should it mean a value that is in its range here, its own word is told.
    match sentences.is_empty() {
        true => vec![refusal.sentence().to_string()],
        false => sentences,
    }
}

/// The numbers of elements (1 to 24) that the bytes of a year can be of, by their form: it is not known
/// from the bytes alone.
pub fn elements_of_year(year: &[u8]) -> Vec<usize> {
    (1..=24).filter(|elements| !year.is_empty() && hours_of_form(year, *elements).is_ok()).collect()
}

/// The hours of a year's bytes, by their form alone: values may be out of range. A fault of the form is
/// told in a sentence.
pub fn hours_of_form(year: &[u8], elements: usize) -> Result<Vec<Conditions>, String> {
    let size = COMMON_SIZE + ElementHour::SIZE * elements;
    if year.len() % size != 0 {
        return Err(format!(
            "its {} bytes are not a whole number of hours of {size} bytes, which {elements} elements take",
            year.len()
        ));
    }
    let hours = year.chunks_exact(size).enumerate().map(|(place, hour)| match form_is_good(hour) {
        true => Ok(Conditions::of_accepted(hour)),
        false => Err(format!("hour {} has a bad rate code or open byte", place + 1)),
    });
    hours.collect()
}

fn form_is_good(hour: &[u8]) -> bool {
    let elements = &hour[COMMON_SIZE..];
    let rates = hour[RATE_CODE] == 1 || fixed_rate(hour).is_some();
    rates && elements.chunks_exact(ElementHour::SIZE).all(|element| element[40] <= 15)
}
