//! Books that hold hours with the fixed rate, rate code 0, as they were written before it was retired; and what the
//! converter makes of a book, worked out from its bytes alone.
#![allow(dead_code)] // Each file of tests uses a part of this.
use hem_zone::{Book, Zone};
use std::ops::Range;

/// In the conditions: the rate code and the two rates behind it.
pub const CODE: usize = 96;
pub const FIRST: Range<usize> = 97..105;
pub const SECOND: Range<usize> = 105..113;
/// In an entry they stand behind its length and its version.
const CONDITIONS: usize = 5;

/// Whether conditions have target and windows open by the same bits: then they have a twin with a fixed rate.
pub fn has_rate_twice(conditions: &[u8]) -> bool {
    conditions[CODE] == 1 && conditions[FIRST] == conditions[SECOND]
}

/// Puts the fixed rate in the place of the rate twice.
pub fn put_fixed(conditions: &mut [u8]) {
    assert!(has_rate_twice(conditions));
    conditions[CODE] = 0;
    conditions[SECOND].fill(0);
}

/// The conditions with the fixed rate in the place of the rate twice.
pub fn fixed(conditions: &[u8]) -> Vec<u8> {
    let mut fixed = conditions.to_vec();
    put_fixed(&mut fixed);
    fixed
}

/// The rate twice in the place of a fixed one.
fn put_rate_twice(conditions: &mut [u8]) {
    if conditions[CODE] == 0 {
        conditions[CODE] = 1;
        conditions.copy_within(FIRST, SECOND.start);
    }
}

/// Where the conditions of a book's hours stand in its bytes.
pub fn all_conditions(zone: &Zone, book: &[u8]) -> Vec<Range<usize>> {
    let size = zone.layout().conditions_len();
    let start = |entry: Range<usize>| entry.start + CONDITIONS;
    zone.layout().entries(book).map(start).map(|at| at..at + size).collect()
}

/// The bytes of a book in which these hours have the fixed rate in the place of the rate twice.
pub fn with_fixed_rates(book: &Book, hours: impl IntoIterator<Item = usize>) -> Vec<u8> {
    let mut bytes = book.bytes().to_vec();
    let conditions = all_conditions(book.zone(), &bytes);
    for hour in hours {
        put_fixed(&mut bytes[conditions[hour].clone()]);
    }
    bytes
}

/// The hours of a book that have the rate twice.
pub fn with_a_twin(book: &Book) -> Vec<usize> {
    let has_twin = |hour: &usize| has_rate_twice(book.entry(*hour).unwrap().conditions_bytes());
    (0..book.hours()).filter(has_twin).collect()
}

/// What the converter makes of the used bytes of a book.
pub fn converted(zone: &Zone, used: &[u8]) -> Vec<u8> {
    let mut bytes = used.to_vec();
    for conditions in all_conditions(zone, used) {
        put_rate_twice(&mut bytes[conditions]);
    }
    bytes
}
