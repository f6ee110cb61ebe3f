//! `hem-year check`: all faults of a house and its hours, before a run meets them one by one.
use crate::calendar::hour_name;
use crate::failure::Failure;
use crate::files;
use crate::fixed_rate::{self, Form, RENAME};
use crate::inputs::{self, Year};
use crate::rule::limits_in_words;
use crate::version::NEW_BOOK_VERSION;
use crate::words::{count, hours};
use hem_zone::text::{
    conditions_faults, head_faults, hour_lines, read_hours, read_house, Faults, Plan,
};
use hem_zone::{Book, Conditions, Head, Rule, Zone};
use std::path::Path;

/// What is checked.
pub struct Check<'a> {
    pub house: &'a Path,
    pub hours: &'a Path,
    /// The rule of the entries that are calculated, where it is given.
    pub rule: Option<Rule>,
}

pub fn check(given: &Check) -> Result<(), Failure> {
    let rule = given.rule.unwrap_or(NEW_BOOK_VERSION.into());
    let (house, hours) = (given.house, given.hours);
    let mut faults = Faults::new();
    let (zone, plan) = check_house(house, &mut faults)?;
    let year = check_hours(hours, zone.as_ref(), plan.as_ref(), &mut faults)?;
    if let (Some(zone), Read::Good(year), true) = (&zone, &year, faults.is_empty()) {
        check_run(given, zone, year, rule, &mut faults);
        if faults.is_empty() {
            return files::print(&praise(given, zone, year.len(), rule));
        }
    }
    files::print(&faults.to_string())?;
    let more = match year {
        Read::Not => format!("; {} cannot be checked before the house is good", hours.display()),
        Read::Fixed => format!("; {RENAME}"),
        _ => String::new(),
    };
    Err(Failure::Refused(format!("{}{more}", faults.number())))
}

/// What became of the hours.
enum Read {
    /// Their bytes, an hour each.
    Good(Vec<Vec<u8>>),
    /// Their faults were told.
    Bad,
    /// They are a table, and have rates that are fixed.
    Fixed,
    /// Too little is known of the house.
    Not,
}

fn praise(given: &Check, zone: &Zone, number: usize, rule: Rule) -> String {
    let version = rule.version();
    let limits = rule.limits().map_or(String::new(), |l| format!(" ({})", limits_in_words(&l)));
    format!(
        "{}: a house of {}\n{}: {}\n\
         no faults: start-up settles and every hour can be calculated, as entries of version {version}{limits}\n",
        given.house.display(),
        count(zone.layout().elements(), "element"),
        given.hours.display(),
        hours(number),
    )
}

/// The zone of a house without faults, and what is known of its elements in any case.
fn check_house(path: &Path, faults: &mut Faults) -> Result<(Option<Zone>, Option<Plan>), Failure> {
    let bytes = files::read(path)?;
    inputs::must_not_be_utf16(path, &bytes)?;
    let head = if inputs::is_text(&bytes) {
        let text = inputs::utf8(path, &bytes)?;
        let house = read_house(&path.display().to_string(), text, faults);
        match house.head {
            Some(head) => return Ok((judged(path, &head, faults), house.plan)),
            None => return Ok((None, house.plan)),
        }
    } else {
        Head::from_bytes(&bytes)
    };
    for fault in head_faults(&bytes) {
        faults.add(path.display(), fault);
    }
    let Ok(head) = head else { return Ok((None, None)) };
    Ok((judged(path, &head, faults), Some(Plan::of_head(&head))))
}

fn judged(path: &Path, head: &Head, faults: &mut Faults) -> Option<Zone> {
    Zone::new(head).map_err(|refusal| faults.add(path.display(), refusal)).ok()
}

fn check_hours(
    path: &Path,
    zone: Option<&Zone>,
    plan: Option<&Plan>,
    faults: &mut Faults,
) -> Result<Read, Failure> {
    let bytes = files::read(path)?;
    inputs::must_not_be_utf16(path, &bytes)?;
    if inputs::is_text(&bytes) {
        let Some(plan) = plan else { return Ok(Read::Not) };
        let hours = read_hours(&path.display().to_string(), &bytes, Some(plan), faults);
        return Ok(hours.map_or(Read::Bad, |hours| check_table(path, &bytes, &hours, faults)));
    }
    let Some(zone) = zone else { return Ok(Read::Not) };
    match Year::of_bytes(path, bytes, zone) {
        Ok(year) => Ok(Read::Good(check_year(path, zone, &year, faults))),
        Err(failure) => {
            faults.add_sentence(failure);
            Ok(Read::Bad)
        }
    }
}

/// The hours of a table without faults, but for rates that are fixed.
fn check_table(path: &Path, text: &[u8], hours: &[Conditions], faults: &mut Faults) -> Read {
    let hours: Vec<Vec<u8>> = hours.iter().map(Conditions::to_bytes).collect();
    fixed_rate::tell(path, hours.iter().map(Vec::as_slice), Some(&hour_lines(text)), 0, faults);
    match hours.iter().any(|hour| fixed_rate::fault(hour, Form::Table).is_some()) {
        true => Read::Fixed,
        false => Read::Good(hours),
    }
}

fn check_year(path: &Path, zone: &Zone, year: &Year, faults: &mut Faults) -> Vec<Vec<u8>> {
    let mut start = 0.0;
    let hours = (0..year.len()).map(|place| {
        let hour = year.hour(place);
        let fixed = fixed_rate::fault(hour, Form::Bytes);
        for fault in conditions_faults(zone, hour).into_iter().chain(fixed) {
            faults.add(format_args!("{}: {}", path.display(), hour_name(place, start)), fault);
        }
        start += f64::from_be_bytes(hour[..8].try_into().unwrap_or_default());
        hour.to_vec()
    });
    hours.collect()
}

/// Runs start-up and the hours, as in a new book: what they lead to can be refused too.
fn check_run(given: &Check, zone: &Zone, year: &[Vec<u8>], rule: Rule, faults: &mut Faults) {
    let mut book = match Book::begin(zone.head()) {
        Ok(book) => book,
        Err(refusal) => return faults.add(given.house.display(), refusal),
    };
    let mut start = 0.0;
    for (place, hour) in year.iter().enumerate() {
        if let Err(refusal) = book.append(hour, rule) {
            let at = format!("{}: {}", given.hours.display(), hour_name(place, start));
            return faults
                .add(at, format_args!("{refusal}; the hours after it were not calculated"));
        }
        start += book.entry(place).map_or(0.0, |entry| entry.conditions().delta_t_h);
    }
}
