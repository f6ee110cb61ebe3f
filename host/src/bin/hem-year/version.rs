//! The version of entries: the one that a run appends with, and how many of each a book holds.
use crate::damage::cut_keeps;
use crate::failure::Failure;
use crate::rule::of_version;
use crate::words::{first_hours, grouped};
use hem_zone::{
    entry_versions_to, Book, Refusal, Rule, ENTRY_VERSION_1, ENTRY_VERSION_2, ENTRY_VERSION_3,
    NEWEST_ENTRY_VERSION,
};
use std::path::Path;

/// The version of new books. Version 3 asks for more than the conditions of an hour, so no book begins with
/// it unless limits are given.
pub const NEW_BOOK_VERSION: u64 = ENTRY_VERSION_2;

// ---- the rule that a run appends with ----

/// The rule of the entries to append to a book that is not full: the one that is given, else that of the
/// last entry, its limits included; a book that holds no hour yet is a new one. The engine is asked by an
/// append without conditions, which it refuses in any case and which leaves the book as it is.
pub fn to_append(path: &Path, book: &mut Book, given: Option<Rule>) -> Result<Rule, Failure> {
    let rule = given.or(book.last_rule()).unwrap_or(NEW_BOOK_VERSION.into());
    match book.append(&[], rule) {
        Err(refusal) if of_version(&refusal) => {
            Err(goes_back(path, book, rule.version(), &refusal))
        }
        _ => Ok(rule),
    }
}

/// Says that a book would go back to this version, and how the version can be had.
fn goes_back(path: &Path, book: &Book, version: u64, refusal: &Refusal) -> Failure {
    let way = match book.entries().take_while(|entry| entry.version() <= version).count() {
        0 => another_book(version),
        held => format!(
            "its {} of version {}: {}",
            first_hours(held),
            entry_versions_to(version, "or"),
            cut_keeps(path, held, "")
        ),
    };
    Failure::Refused(format!(
        "{}: --entry-version is {version}, but its last hour is of version {}, and a book never goes \
         back (refusal {}); {way}; the book is left as it is",
        path.display(),
        book.last_version(),
        refusal.number()
    ))
}

/// How a version can be had that a book cannot have.
pub fn another_book(version: u64) -> String {
    format!("for version {version} begin another book")
}

// ---- the versions that are held ----

/// How many entries are of which version: as `24 of version 1, 8,736 of version 2`.
pub fn held_by_version(book: &Book) -> String {
    listed(book, |_| "")
}

/// The same with what the version means.
pub fn held_by_version_and_rule(book: &Book) -> String {
    listed(book, |version| match version {
        ENTRY_VERSION_1 => " (cooling by frac_convective_heat)",
        ENTRY_VERSION_3 => " (cooling by frac_convective_cool, power with limits)",
        _ => " (cooling by frac_convective_cool)",
    })
}

/// Each version that is held, with its number of entries before it and a note behind it.
fn listed(book: &Book, note: impl Fn(u64) -> &'static str) -> String {
    let number = |version| book.entries().filter(|entry| entry.version() == version).count();
    let held = (ENTRY_VERSION_1..=NEWEST_ENTRY_VERSION).map(|version| (version, number(version)));
    let words = held.filter(|(_, number)| *number > 0).map(|(version, number)| {
        format!("{} of version {version}{}", grouped(number), note(version))
    });
    let words: Vec<String> = words.collect();
    match words.is_empty() {
        true => "none".into(),
        false => words.join(", "),
    }
}
