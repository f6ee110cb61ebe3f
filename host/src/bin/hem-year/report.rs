//! `hem-year report`: what a designer needs of a year.
use crate::calendar::Moment;
use crate::convection_text::convection;
use crate::damage;
use crate::failure::Failure;
use crate::figures::HourFigures;
use crate::files;
use crate::highest::highest;
use crate::inputs::House;
use crate::kind::Kind;
use crate::load::{Load, COOLING, HEATING};
use crate::monthly::monthly;
use crate::output::{self, Output};
use crate::plant_text;
use crate::print::{Print, PROGRAM};
use crate::sums::{exceeded_for, falling};
use crate::svg;
use crate::table::{self, Columns};
use crate::version::held_by_version_and_rule;
use crate::warmth;
use crate::words::{count, length_of_time, unfinished};
use hem_zone::text::Plan;
use hem_zone::Book;
use std::fmt::Write;
use std::path::Path;

/// The share of the time for which a design load may be exceeded.
const EXCEEDED: f64 = 0.004;

/// What a report is asked for.
pub struct Report<'a> {
    pub book: &'a Path,
    pub name: Option<String>,
    /// The house that the book must be of, which has names.
    pub house: Option<&'a Path>,
    pub csv: Option<&'a Path>,
    pub svg: Option<&'a Path>,
    pub columns: Columns,
    pub force: bool,
}

pub fn report(given: &Report) -> Result<(), Failure> {
    targets_must_be_apart(given)?;
    let check = |path: Option<&Path>, kind| {
        path.map(|path| Output::check(path, &kind, given.force)).transpose()
    };
    let (csv, svg) = (check(given.csv, Kind::Table)?, check(given.svg, Kind::Drawing)?);
    let bytes = files::read(given.book)?;
    let (book, plan) = take_up(given, &bytes)?;
    let print = Print::of(house_name(given, &plan), plan.names().to_vec(), &book)?;
    let table = csv.is_some().then(|| table::table(&print, &given.columns)).transpose()?;
    let drawing = svg.is_some().then(|| svg::draw(&print).into_bytes());
    let targets = [(csv, &table), (svg, &drawing)];
    let pairs = targets.into_iter().filter_map(|(to, bytes)| Some((to?, bytes.as_deref()?)));
    output::put_all(pairs.collect())?;
    files::print(&text(given.book, &print, bytes.len() - book.bytes().len()))
}

/// The book, and the names that its elements have in the house that is given, or else by number.
fn take_up(given: &Report, bytes: &[u8]) -> Result<(Book, Plan), Failure> {
    if let Some(path) = given.house {
        let house = House::read(path)?;
        let book = damage::take_up_with_head(given.book, bytes, path, &house.zone)?;
        return Ok((book, house.plan));
    }
    let book = damage::take_up(given.book, bytes)?;
    let plan = Plan::of_elements(book.zone().layout().elements());
    Ok((book, plan))
}

/// The name that is given, that of the house file, or that of the book's file.
fn house_name(given: &Report, plan: &Plan) -> String {
    let of_house = || plan.house_name().map(String::from);
    let of_file = || given.book.file_stem().map(|stem| stem.to_string_lossy().into_owned());
    given.name.clone().or_else(of_house).or_else(of_file).unwrap_or_default()
}

/// No target is the book, the house or the other target.
fn targets_must_be_apart(given: &Report) -> Result<(), Failure> {
    for target in [given.csv, given.svg].into_iter().flatten() {
        if files::same_file(target, given.book) {
            return Err(Failure::file(target, "is the book, which a report does not replace"));
        }
        if given.house.is_some_and(|house| files::same_file(target, house)) {
            return Err(Failure::file(target, "is the house, which a report does not replace"));
        }
    }
    match (given.csv, given.svg) {
        (Some(a), Some(b)) if files::same_file(a, b) => {
            Err(Failure::file(a, "is given for the table and for the drawing"))
        }
        _ => Ok(()),
    }
}

// ---- the text ----

fn text(path: &Path, print: &Print, torn: usize) -> String {
    let mut text = title(path, print);
    text += &unfinished(torn);
    if !print.hours.is_empty() {
        text.push('\n');
        text += &totals(print);
        text += &extremes(&print.hours);
        let _ = writeln!(text, "Warm       {}", warmth::in_words(&print.sums));
        let _ = writeln!(text, "Entries    {}", held_by_version_and_rule(print.book));
        text += &plant_text::plant(&print.hours);
        text += &monthly(print);
        text += &highest(print, &HEATING);
        text += &highest(print, &COOLING);
        text += &convection(print);
        text +=
            "\nHours are named by their beginning; temperatures inside are those at their end.\n";
    }
    text.push('\n');
    for (name, digits) in print.fingerprints.named() {
        let _ = writeln!(text, "SHA-256 of {name:10}  {digits}");
    }
    text
}

fn title(path: &Path, print: &Print) -> String {
    let layout = print.book.zone().layout();
    let mut text = format!(
        "{}: useful floor area {} m², {}, {}\n{}, by {PROGRAM}: ",
        print.name,
        layout.useful_area(),
        count(layout.elements(), "element"),
        count(layout.nodes(), "node"),
        path.display(),
    );
    match (print.hours.first(), print.hours.last()) {
        (Some(first), Some(last)) => {
            let end = Moment(last.end()).end_date();
            let (from, to) = (first.date(), end.trim());
            let _ = writeln!(text, "{} held, from {} to {to}", print.length(), from.trim());
        }
        _ => text += "no hours held\n",
    }
    text
}

fn totals(print: &Print) -> String {
    let windows = format!("Windows    used in {}\n", length_of_time(print.sums.windows));
    total(print, &HEATING) + &total(print, &COOLING) + &windows
}

/// Energy, how long it was needed, and the greatest powers. Where a limit held, what was delivered goes
/// before what was asked for.
fn total(print: &Print, load: &Load) -> String {
    let (asked, time) = (load.asked)(&print.sums);
    let steps = falling(&print.hours, load.power);
    let mut text = format!("{} {}", load.title, delivered(print, load, 10));
    if load.was_short(&print.sums) {
        let _ = write!(text, ", {asked:.1} kWh asked for");
    }
    let _ = write!(text, " in {}", length_of_time(time));
    if let Some((highest, _)) = steps.first() {
        let design = exceeded_for(&steps, EXCEEDED * print.sums.length);
        let percent = 100.0 * EXCEEDED;
        let _ = write!(
            text,
            ", highest {highest:.2} kW, above {design:.2} kW for at most {percent:.1} % of the time"
        );
    }
    text + "\n"
}

/// The energy of a load in all and by floor area, and that it is what was delivered, where that is less than
/// what was asked for.
pub fn delivered(print: &Print, load: &Load, width: usize) -> String {
    let energy = load.delivered(&print.sums);
    let word = if load.was_short(&print.sums) { " delivered" } else { "" };
    format!("{energy:width$.1} kWh{word} ({:.1} kWh/m²)", energy / print.area())
}

fn extremes(hours: &[HourFigures]) -> String {
    let by_temperature = |a: &&HourFigures, b: &&HourFigures| a.operative.total_cmp(&b.operative);
    let lowest = hours.iter().min_by(by_temperature);
    // The first of equal ones, as for the lowest.
    let highest = hours.iter().rev().max_by(by_temperature);
    match (lowest, highest) {
        (Some(low), Some(high)) => format!(
            "Operative  lowest {:.1} °C ({}), highest {:.1} °C ({})\n",
            low.operative,
            low.date().trim(),
            high.operative,
            high.date().trim()
        ),
        _ => String::new(),
    }
}
