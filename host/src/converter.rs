//! The converter: the hours of a book that have one fixed rate, written anew.
use crate::book::judge_taken_up;
use crate::explain::Given;
use crate::ffi;
use crate::float;
use crate::refusal::Refusal;

/// A whole book with the rate twice, as target and as windows open, where an hour has one fixed rate. Every demand,
/// temperature and chosen rate is the same bits as before, and so is every hour that has two rates. The book then
/// has only hours that [`Book::append`](crate::Book::append) takes; converting it again changes nothing.
///
/// The bytes are those of a book, as [`Book::bytes`](crate::Book::bytes) or a file has them; a rest behind the last
/// whole entry is left out. What [`Book::take_up`](crate::Book::take_up) refuses is refused first, then with 24 a
/// book that has an entry of version 1.
///
/// ```
/// use hem_zone::{convert, samples, AirChangesPerHour, Book, Reason, ENTRY_VERSION_1, ENTRY_VERSION_2};
///
/// let mut book = Book::begin(&samples::house_p())?;
/// book.append(&samples::hour_p(21.0, 24.0), ENTRY_VERSION_2)?;
///
/// // As an older book has this hour: code 0, and zero bits in place of the second rate.
/// let mut old = book.bytes().to_vec();
/// old[book.zone().head().len() + 5 + 96] = 0;
/// let held = Book::take_up(&old)?.entry(0).unwrap().conditions();
/// assert_eq!(held.ach, AirChangesPerHour::Cooling { ach_cooling: 0.0 });
///
/// assert_eq!(convert(&old)?, book.bytes());
/// assert_eq!(convert(book.bytes())?, book.bytes());
///
/// let mut first = Book::begin(&samples::house_p())?;
/// first.append(&samples::hour_p(21.0, 24.0), ENTRY_VERSION_1)?;
/// assert_eq!(convert(first.bytes()).unwrap_err().reason(), Reason::Version1Entry);
/// # Ok::<(), hem_zone::Refusal>(())
/// ```
pub fn convert(book: &[u8]) -> Result<Vec<u8>, Refusal> {
    float::must_be_standard()?;
    let mut converted = vec![0; book.len()];
    let (mut count, mut used) = (0, 0);
    // SAFETY: both byte strings are valid for their lengths, and what is written is borrowed from nowhere else.
    let answer = unsafe {
        ffi::hem_convert(
            book.as_ptr(),
            book.len(),
            converted.as_mut_ptr(),
            converted.len(),
            &mut count,
            &mut used,
        )
    };
    judge_taken_up(answer, &Given { head: book, ..Given::default() })?;
    converted.truncate(used as usize);
    Ok(converted)
}
