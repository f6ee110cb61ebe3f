//! Taking up a book, and saying what is wrong with one that is refused: which hour, how many hours
//! before it are good, and how to keep them.
use crate::calendar::hour_name;
use crate::failure::Failure;
use crate::places::heads_differ;
use crate::words::{count, first_hours, hours};
use hem_zone::{Book, Reason, Refusal, Zone, ENTRY_VERSION_1, MOST_ENTRIES};
use std::path::Path;

/// The book of a file's bytes.
pub fn take_up(path: &Path, bytes: &[u8]) -> Result<Book, Failure> {
    take_up_or(path, bytes, "")
}

/// The same where a cut of the file needs this option.
pub fn take_up_or(path: &Path, bytes: &[u8], option: &str) -> Result<Book, Failure> {
    Book::take_up(bytes).map_err(|refusal| refused(path, bytes, &refusal, option))
}

/// What is said of a file's bytes that were refused as a book.
pub fn refused(path: &Path, bytes: &[u8], refusal: &Refusal, option: &str) -> Failure {
    let (fault, good) = (fault(bytes, refusal), good_hours(bytes, refusal));
    let keep = good.map_or(String::new(), |good| format!("; {}", keep(path, good, option)));
    Failure::Refused(format!("{}: {fault}{keep}; {LEFT}", path.display()))
}

/// The option of a cut that takes this head.
pub fn head_option(head: &Path) -> String {
    format!(" --head {}", head.display())
}

const LEFT: &str = "the file is left as it is";

/// The book of a file's bytes, which must begin with the head that is given. Where it does not, that
/// head is put in its place, to find out whether only the head is damaged.
pub fn take_up_with_head(
    path: &Path,
    bytes: &[u8],
    head: &Path,
    zone: &Zone,
) -> Result<Book, Failure> {
    if bytes.starts_with(zone.head()) || bytes.len() < zone.head().len() {
        return take_up(path, bytes);
    }
    let (own, other) = (Book::take_up(bytes), with_head(bytes, zone.head()));
    let good = match Book::take_up(&other) {
        Ok(book) => book.hours(),
        Err(refusal) => good_hours(&other, &refusal).unwrap_or(0),
    };
    let difference = difference(bytes, head, zone);
    let keep = || keep(path, good, &head_option(head));
    Err(match own {
        Ok(_) => Failure::file(
            path,
            format!("was begun with another head than {}: {difference}; {LEFT}", head.display()),
        ),
        Err(_) if good > 0 => Failure::Refused(format!(
            "{}: its head is damaged: {difference}; with the head of {} {}; {LEFT}",
            path.display(),
            head.display(),
            keep(),
        )),
        Err(refusal) => Failure::Refused(format!(
            "{}: {}; its head is not that of {} either: {difference}; {LEFT}",
            path.display(),
            fault(bytes, &refusal),
            head.display(),
        )),
    })
}

/// A book's bytes with another head in the place of its own.
pub fn with_head(bytes: &[u8], head: &[u8]) -> Vec<u8> {
    [head, bytes.get(head.len()..).unwrap_or(&[])].concat()
}

fn difference(book: &[u8], head: &Path, zone: &Zone) -> String {
    match heads_differ(book, zone.head()) {
        Some((name, ours, theirs)) => {
            format!("{name} is {ours} in the book, {theirs} in {}", head.display())
        }
        None => "it has other bytes".into(),
    }
}

/// What the engine refused, with the name of the hour where it is one.
fn fault(bytes: &[u8], refusal: &Refusal) -> String {
    let (Some(good), Ok(zone)) = (good_hours(bytes, refusal), Zone::from_head(bytes)) else {
        return refusal.to_string();
    };
    let rest = bytes.len() - end_of(&zone, bytes, good).unwrap_or(bytes.len());
    let (number, sentence) = (refusal.number(), refusal.sentence());
    if refusal.reason() == Reason::BookFull {
        return format!(
            "behind its {}, as many as a book holds, stand {} (refusal {number})",
            hours(good),
            count(rest, "more byte")
        );
    }
    let own = sentence.strip_prefix(&format!("entry {good}: ")).unwrap_or(sentence);
    match zone.layout().entry_len(ENTRY_VERSION_1) {
        // Shorter than any hour, the rest was taken for one by its version byte alone.
        Some(shortest) if rest < shortest => {
            let behind = if good == 0 { "head".into() } else { hours(good) };
            let version = own.strip_prefix("its version is ").unwrap_or(own);
            format!(
                "behind its {behind} stand {} that are no hour (their version byte is {version}) (refusal {number})",
                count(rest, "byte")
            )
        }
        _ => format!("{}: {own} (refusal {number})", hour_name(good, start_of(bytes, good))),
    }
}

/// How many hours stand before the first false one, or before what is more than a book holds.
fn good_hours(bytes: &[u8], refusal: &Refusal) -> Option<usize> {
    Zone::from_head(bytes).ok()?;
    match refusal.reason() {
        Reason::FalseEntry => Some(refusal.index() as usize),
        Reason::BookFull => Some(MOST_ENTRIES),
        _ => None,
    }
}

/// When an hour begins whose predecessors are good.
fn start_of(bytes: &[u8], place: usize) -> f64 {
    let Ok(zone) = Zone::from_head(bytes) else { return 0.0 };
    let end = end_of(&zone, bytes, place).unwrap_or(zone.layout().head_len());
    match Book::take_up(&bytes[..end]) {
        Ok(book) => book.entries().map(|entry| entry.conditions().delta_t_h).sum(),
        Err(_) => 0.0,
    }
}

/// Where the first hours of a book's bytes end, if there are as many.
pub fn end_of(zone: &Zone, bytes: &[u8], hours: usize) -> Option<usize> {
    match hours {
        0 => Some(zone.layout().head_len()),
        _ => zone.layout().entries(bytes).nth(hours - 1).map(|last| last.end),
    }
}

/// How the good hours can be kept.
fn keep(path: &Path, good: usize, option: &str) -> String {
    match good {
        0 => "no hour before it is held".into(),
        _ => format!("its {} good, and {}", first_hours(good), cut_keeps(path, good, option)),
    }
}

/// The command that keeps the first hours of a book.
pub fn cut_keeps(path: &Path, number: usize, option: &str) -> String {
    let them = if number == 1 { "it" } else { "them" };
    format!("`hem-year cut {} {number} NEW{option}` keeps {them}", path.display())
}
