//! Questions about a book: when did it get warm? The engine takes up the bytes of the book for each of them.
use crate::book::judge_taken_up;
use crate::explain::Given;
use crate::ffi;
use crate::float;
use crate::refusal::Refusal;

/// The first hour of a book, from 0, at which the operative temperature goes from at or below `value`, °C, to
/// above it: the one before the hour is at most `value`, its own, at its end, is greater. Before the first
/// hour stands start-up's. `None` where there is no such hour, as in a book that is always above.
///
/// The bytes are those of a book, as [`Book::bytes`](crate::Book::bytes) or a file has them; what
/// [`Book::take_up`](crate::Book::take_up) refuses is refused first, then with 20 a value that is not finite
/// or beyond ±1,000,000.
///
/// ```
/// use hem_zone::{first_above, hours_within, nearest_hour, samples, Book, ENTRY_VERSION_2};
///
/// let mut book = Book::begin(&samples::house_p())?;
/// for setpoint in [20.0, 21.0, 22.0] {
///     book.append(&samples::hour_p(setpoint, 24.0), ENTRY_VERSION_2)?;
/// }
/// assert_eq!(first_above(book.bytes(), 20.0)?, Some(1));
/// assert_eq!(first_above(book.bytes(), 19.0)?, None);
/// assert_eq!(hours_within(book.bytes(), 20.0, 23.0)?, 3);
/// assert_eq!(nearest_hour(book.bytes(), 30.0)?, Some(2));
/// # Ok::<(), hem_zone::Refusal>(())
/// ```
pub fn first_above(book: &[u8], value: f64) -> Result<Option<usize>, Refusal> {
    // SAFETY: the book is valid for its length and only read, the hour is borrowed from nowhere else.
    let call =
        |hour: &mut u64| unsafe { ffi::hem_first_above(book.as_ptr(), book.len(), value, hour) };
    answered(book, &[("value", value)], call).map(hour_of)
}

/// How many hours of a book have an operative temperature within `lower` to `upper`, °C, both included.
/// Start-up is no hour. Refused as [`first_above`], and with 20 also where `lower` is above `upper`.
pub fn hours_within(book: &[u8], lower: f64, upper: f64) -> Result<usize, Refusal> {
    // SAFETY: as in `first_above`.
    let call = |hours: &mut u64| unsafe {
        ffi::hem_hours_within(book.as_ptr(), book.len(), lower, upper, hours)
    };
    answered(book, &[("lower", lower), ("upper", upper)], call).map(|hours| hours as usize)
}

/// The hour of a book, from 0, whose operative temperature is nearest to `value`, °C, the earlier of equal
/// ones; `None` where the book holds no hour. Refused as [`first_above`].
pub fn nearest_hour(book: &[u8], value: f64) -> Result<Option<usize>, Refusal> {
    // SAFETY: as in `first_above`.
    let call =
        |hour: &mut u64| unsafe { ffi::hem_nearest_hour(book.as_ptr(), book.len(), value, hour) };
    answered(book, &[("value", value)], call).map(hour_of)
}

/// What a call writes as its answer, unless it refuses.
fn answered(
    book: &[u8],
    asked: &[(&'static str, f64)],
    call: impl FnOnce(&mut u64) -> u32,
) -> Result<u64, Refusal> {
    float::must_be_standard()?;
    let mut written = 0;
    let answer = call(&mut written);
    judge_taken_up(answer, &Given { head: book, asked, ..Given::default() })?;
    Ok(written)
}

fn hour_of(written: u64) -> Option<usize> {
    (written != ffi::NONE).then_some(written as usize)
}
