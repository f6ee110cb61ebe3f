//! `hem-year convert`: a book whose fixed rates are written anew, as rates for windows open and closed.
use crate::damage;
use crate::failure::Failure;
use crate::files;
use crate::fingerprint;
use crate::kind::Kind;
use crate::output;
use crate::words::{first_hours, grouped, hours, unfinished};
use hem_zone::{Book, Reason, Refusal, Zone, ENTRY_VERSION_1};
use std::path::Path;

pub fn convert(book: &Path, new: &Path, force: bool) -> Result<(), Failure> {
    if files::same_file(book, new) {
        let text = "is read by this conversion and cannot be its result too";
        return Err(Failure::file(new, text));
    }
    let bytes = files::read(book)?;
    let converted = hem_zone::convert(&bytes).map_err(|refusal| refused(book, &bytes, &refusal))?;
    let zone = Zone::from_head(&converted).map_err(|r| Failure::refused(book, &r))?;
    output::put(new, &Kind::Book(zone.head().to_vec()), force, &converted)?;
    files::print(&said(book, new, &zone, &bytes, &converted))
}

/// What is said of a book that is not converted: it is damaged, or has hours of version 1.
fn refused(path: &Path, bytes: &[u8], refusal: &Refusal) -> Failure {
    if refusal.reason() != Reason::Version1Entry {
        return damage::refused(path, bytes, refusal, "");
    }
    Failure::Refused(format!(
        "{}: its {} of version 1, and a book with such hours is not converted (refusal {}); its year can be calculated \
         anew, by `hem-year run` into another book, from its hours with rate in the place of ach_cooling; the file is \
         left as it is",
        path.display(),
        first_hours(of_version_1(bytes)),
        refusal.number(),
    ))
}

/// How many hours of a book are of version 1. They are its first ones, since versions never fall.
fn of_version_1(book: &[u8]) -> usize {
    let of_version_1 =
        |book: Book| book.entries().filter(|entry| entry.version() == ENTRY_VERSION_1).count();
    Book::take_up(book).map_or(0, of_version_1)
}

/// What was done: a converted book has its entries at the places of the old ones.
fn said(book: &Path, new: &Path, zone: &Zone, bytes: &[u8], converted: &[u8]) -> String {
    let entries = || zone.layout().entries(converted);
    let anew = entries().filter(|entry| bytes[entry.clone()] != converted[entry.clone()]).count();
    let (count, rest) = (entries().count(), bytes.len() - converted.len());
    let end = if rest == 0 { "" } else { "but for its end " };
    let done = match anew {
        0 => format!("no hour has a fixed rate: {end}the book is the same, byte for byte"),
        _ => format!(
            "{} with a fixed rate written anew, with the rate for windows open and closed; {} untouched",
            hours(anew),
            grouped(count - anew)
        ),
    };
    format!(
        "{}: {} of {}, {} bytes\n{done}\n{}SHA-256 of {:10}  {}\n",
        new.display(),
        hours(count),
        book.display(),
        grouped(converted.len()),
        unfinished(rest),
        "book",
        fingerprint::of(converted),
    )
}
