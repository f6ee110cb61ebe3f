//! `hem-year show`: a head, conditions or a book as text.
use crate::calendar::hour_name;
use crate::damage::take_up;
use crate::failure::Failure;
use crate::files;
use crate::inputs::{is_text, House};
use crate::words::hours;
use hem_zone::text::{
    elements_of_year, hours_of_form, results_text, write_hours, write_house, Plan,
};
use hem_zone::{Book, Head, Zone};
use std::path::Path;

/// What is to be shown of a file.
pub struct Show<'a> {
    /// One hour, from 1.
    pub hour: Option<usize>,
    /// The hours of a book, in place of its head.
    pub hours: bool,
    /// A house, whose names the elements get.
    pub house: Option<&'a Path>,
}

pub fn show(file: &Path, what: Show) -> Result<(), Failure> {
    let bytes = files::read(file)?;
    if is_text(&bytes) {
        return Err(Failure::file(file, "is text already"));
    }
    let house = what.house.map(House::read).transpose()?;
    let text = match Zone::from_head(&bytes) {
        Ok(zone) if zone.head().len() == bytes.len() => show_head(file, &bytes, &what, house)?,
        Ok(_) => show_book(file, &take_up(file, &bytes)?, &what, house)?,
        // Conditions begin with the length of an hour, which no length of a head begins like.
        Err(_) if bytes.first().is_some_and(|byte| *byte > 0) => {
            show_year(file, &bytes, &what, house)?
        }
        Err(refusal) => return Err(Failure::refused(file, &refusal)),
    };
    files::print(&text)
}

/// The plan of the house that is given, if it is one of the same elements, or else of the head.
fn plan_of(file: &Path, head: &Head, house: Option<House>) -> Result<Plan, Failure> {
    let own = Plan::of_head(head);
    match house {
        None => Ok(own),
        Some(house) if house.plan.fits(&own) => Ok(house.plan),
        Some(_) => Err(Failure::file(file, "has other elements than the house that is given")),
    }
}

fn show_head(
    file: &Path,
    bytes: &[u8],
    what: &Show,
    house: Option<House>,
) -> Result<String, Failure> {
    if what.hour.is_some() || what.hours {
        return Err(Failure::file(file, "is a head, which has no hours"));
    }
    let head = Head::from_bytes(bytes).map_err(|r| Failure::refused(file, &r))?;
    Ok(write_house(&head, &plan_of(file, &head, house)?))
}

fn show_book(
    file: &Path,
    book: &Book,
    what: &Show,
    house: Option<House>,
) -> Result<String, Failure> {
    let head = Head::from_bytes(book.zone().head()).map_err(|r| Failure::refused(file, &r))?;
    let plan = plan_of(file, &head, house)?;
    let all = || book.entries().map(|entry| entry.conditions());
    match what.hour {
        None if what.hours => Ok(write_hours(&all().collect::<Vec<_>>(), &plan, 1)),
        None => {
            let held = hours(book.hours());
            Ok(format!("# A book of {held} begins with this head.\n{}", write_house(&head, &plan)))
        }
        Some(number) => {
            let place = place_of(file, number, book.hours())?;
            let start = all().take(place).map(|hour| hour.delta_t_h).sum();
            let Some(entry) = book.entry(place) else { return Ok(String::new()) };
            let hour = write_hours(&[entry.conditions()], &plan, number);
            let name = hour_name(place, start);
            Ok(format!("{hour}# What {name} led to:\n{}", results_text(&entry)))
        }
    }
}

fn show_year(
    file: &Path,
    bytes: &[u8],
    what: &Show,
    house: Option<House>,
) -> Result<String, Failure> {
    let plan = match house {
        Some(house) => house.plan,
        None => plan_of_year(file, bytes, "is neither a head, nor a book, nor conditions")?,
    };
    let mut hours =
        hours_of_form(bytes, plan.names().len()).map_err(|text| Failure::file(file, text))?;
    let first = match what.hour {
        None => 1,
        Some(number) => {
            let place = place_of(file, number, hours.len())?;
            hours = vec![hours.swap_remove(place)];
            number
        }
    };
    Ok(write_hours(&hours, &plan, first))
}

/// The elements that conditions are of, by their form. What cannot be conditions is told as this.
pub fn plan_of_year(file: &Path, bytes: &[u8], none: &str) -> Result<Plan, Failure> {
    match elements_of_year(bytes)[..] {
        [one] => Ok(Plan::of_elements(one)),
        [] => Err(Failure::file(file, none)),
        _ => {
            let text = "may be conditions of several numbers of elements; --head has to say which";
            Err(Failure::file(file, text))
        }
    }
}

/// The place of an hour, from 0.
pub fn place_of(file: &Path, number: usize, held: usize) -> Result<usize, Failure> {
    match number {
        1.. if number <= held => Ok(number - 1),
        _ => {
            let text = format!("has {}, numbered from 1: there is no hour {number}", hours(held));
            Err(Failure::file(file, text))
        }
    }
}
