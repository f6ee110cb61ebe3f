//! `hem-year run`: the missing hours of a book.
use crate::calendar::hour_name;
use crate::failure::Failure;
use crate::files;
use crate::fixed_rate::{self, Form, LEFT};
use crate::inputs::{House, Year};
use crate::places::conditions_differ;
use crate::rule::limits_in_words;
use crate::stop::Stop;
use crate::store::{self, Store};
use crate::version::{self, another_book, held_by_version};
use crate::words::{count, grouped, hours};
use hem_zone::{Book, Rule};
use std::path::Path;

/// What is calculated, and into which book.
pub struct Run<'a> {
    pub house: &'a Path,
    pub hours: &'a Path,
    pub book: &'a Path,
    /// The rule of the entries that are appended, where it is given.
    pub rule: Option<Rule>,
}

pub fn run(given: &Run) -> Result<(), Failure> {
    must_be_apart(given)?;
    let house = House::read(given.house)?;
    let year = Year::read(given.hours, &house)?;
    if store::is_missing(given.book)? {
        fixed_rate::Held::nothing(given.book).others_must_have_none(given.hours, &year)?;
    }
    let stop = Stop::listen();
    let mut store = Store::open(given.book, given.house, &house.zone)?;
    must_agree(given.book, &store.book, given.hours, &year)?;
    let held = Held::of(&store.book);
    // A rule has a meaning only where there is an hour to append.
    let rule = match held.hours < year.len() {
        true => Some(version::to_append(given.book, &mut store.book, given.rule)?),
        false => None,
    };
    fixed_rate::Held::of(given.book, &store.book).others_must_have_none(given.hours, &year)?;
    let dropped = store.drop_torn_tail()?;
    if let Some(rule) = rule {
        store.append_missing(&year, rule, &stop)?;
    }
    let text = summary(given, &held, dropped, &store.book);
    let kept = kept(given, &held, &store.book, &year);
    files::print(&(text + &fewer(given.hours, &held, &year) + &kept))
}

/// What a book held before the run.
struct Held {
    hours: usize,
    by_version: String,
}

impl Held {
    fn of(book: &Book) -> Self {
        Self { hours: book.hours(), by_version: held_by_version(book) }
    }
}

/// The book must not be written over one of the files that it is made from.
fn must_be_apart(given: &Run) -> Result<(), Failure> {
    for other in [given.house, given.hours] {
        if files::same_file(given.book, other) {
            return Err(Failure::file(given.book, "is given as the book and as another file too"));
        }
    }
    Ok(())
}

/// The hours that are held were calculated with the conditions that are given now.
fn must_agree(path: &Path, book: &Book, conditions: &Path, year: &Year) -> Result<(), Failure> {
    let mut start = 0.0;
    for (place, entry) in book.entries().enumerate().take(year.len()) {
        let (held, given) = (entry.conditions_bytes(), year.hour(place));
        let name = || hour_name(place, start);
        if let Some(differ) = fixed_rate::differ(held, given, Form::of(year.lines())) {
            let what = differ.sentence(&fixed_rate::Held::of(path, book), conditions);
            return Err(Failure::file(path, format_args!("{} {what}; {LEFT}", name())));
        }
        if let Some((value, ours, theirs)) = conditions_differ(held, given) {
            let text = format!(
                "{} was calculated with other conditions than {file} has: {value} is {ours} in the book, \
                 {theirs} in {file}; where the book is wrong, `hem-year cut {} {place} NEW` keeps the hours \
                 before it; {LEFT}",
                name(),
                path.display(),
                file = conditions.display(),
            );
            return Err(Failure::file(path, text));
        }
        start += entry.conditions().delta_t_h;
    }
    Ok(())
}

fn summary(given: &Run, held: &Held, dropped: usize, book: &Book) -> String {
    let mut text = String::new();
    if dropped > 0 {
        let verb = if dropped == 1 { "was" } else { "were" };
        text += &format!(
            "{} of an hour that was not written to its end {verb} dropped\n",
            count(dropped, "byte")
        );
    }
    let appended = match book.hours() - held.hours {
        0 => "0 appended".into(),
        more => format!(
            "{} appended with entry version {}{}",
            grouped(more),
            book.last_version(),
            of_limits(given, book)
        ),
    };
    let (path, bytes) = (given.book.display(), grouped(book.bytes().len()));
    text += &format!("{path}: {}, {appended}, {bytes} bytes\n", held_before(held));
    text
}

/// The limits of the hours that were appended, where they have some, and where these come from.
fn of_limits(given: &Run, book: &Book) -> String {
    match (book.last_rule().and_then(|rule| rule.limits()), given.rule) {
        (None, _) => String::new(),
        (Some(limits), Some(_)) => format!(" ({})", limits_in_words(&limits)),
        (Some(limits), None) => {
            format!(" (the limits of the hour before: {})", limits_in_words(&limits))
        }
    }
}

fn held_before(held: &Held) -> String {
    match held.hours {
        0 => "0 hours were held".into(),
        1 => format!("1 hour was held ({})", held.by_version),
        more => format!("{} were held ({})", hours(more), held.by_version),
    }
}

/// Said where the book holds more hours than are given.
fn fewer(conditions: &Path, held: &Held, year: &Year) -> String {
    match held.hours > year.len() {
        true => format!(
            "{} has only {}; the others stay in the book\n",
            conditions.display(),
            hours(year.len())
        ),
        false => String::new(),
    }
}

/// Said where an hour that was held has another rule than this run, of those that the run is given: they
/// stay as they are.
fn kept(given: &Run, held: &Held, book: &Book, year: &Year) -> String {
    let of_appended = || book.last_rule().filter(|_| book.hours() > held.hours);
    let Some(rule) = given.rule.or_else(of_appended) else { return String::new() };
    let before = || book.entries().take(held.hours.min(year.len())).map(|entry| entry.rule());
    if before().all(|before| before == rule) {
        return String::new();
    }
    match before().chain([rule]).any(|rule| rule.limits().is_some()) {
        true => "the hours held keep their version and limits; for one plant in all hours begin another book\n".into(),
        false => format!("the hours held keep their version; {}\n", another_book(rule.version())),
    }
}
