//! `hem-year cut`: the first hours of a book as a book of their own.
use crate::damage;
use crate::failure::Failure;
use crate::files;
use crate::inputs;
use crate::kind::Kind;
use crate::output;
use crate::words::{grouped, hours};
use hem_zone::{Book, Zone};
use std::path::Path;

/// What is cut, and where to.
pub struct Cut<'a> {
    pub book: &'a Path,
    /// How many hours are kept.
    pub keep: usize,
    pub new: &'a Path,
    /// A head that takes the place of the book's own, where that one is damaged.
    pub head: Option<&'a Path>,
    pub force: bool,
}

pub fn cut(given: &Cut) -> Result<(), Failure> {
    for input in [Some(given.book), given.head].into_iter().flatten() {
        if files::same_file(input, given.new) {
            return Err(Failure::file(
                given.new,
                "is read by this cut and cannot be its result too",
            ));
        }
    }
    let kept = first_hours(given)?;
    output::put(given.new, &Kind::Book(kept.zone().head().to_vec()), given.force, kept.bytes())?;
    files::print(&format!(
        "{}: the first {} of {}, {} bytes\n",
        given.new.display(),
        hours(kept.hours()),
        given.book.display(),
        grouped(kept.bytes().len())
    ))
}

/// The hours that are kept, each calculated again; what stands behind them is not looked at.
fn first_hours(given: &Cut) -> Result<Book, Failure> {
    let mut bytes = files::read(given.book)?;
    let zone = match given.head {
        Some(head) => {
            let zone = inputs::zone(head)?;
            bytes = damage::with_head(&bytes, zone.head());
            zone
        }
        None => Zone::from_head(&bytes).map_err(|r| Failure::refused(given.book, &r))?,
    };
    let option = given.head.map_or(String::new(), damage::head_option);
    match damage::end_of(&zone, &bytes, given.keep) {
        Some(end) => damage::take_up_or(given.book, &bytes[..end], &option),
        // Too few are held, or the bytes are damaged, so that their hours cannot be counted.
        None => {
            let held = damage::take_up_or(given.book, &bytes, &option)?.hours();
            let text =
                format!("holds {}, which is fewer than {}", hours(held), grouped(given.keep));
            Err(Failure::file(given.book, text))
        }
    }
}
