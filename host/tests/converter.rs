//! The converter: what it makes of books by chance is what was appended with the rate twice, and nothing else is
//! changed; and what it refuses.
#[path = "common/fixed_rate.rs"]
mod fixed_rate;
#[path = "common/generated.rs"]
mod generated;
#[path = "common/mixed.rs"]
mod mixed;
#[path = "common/softened.rs"]
mod softened;

use fixed_rate::*;
use generated::Chance;
use hem_zone::samples::{hour_p, house_p};
use hem_zone::*;
use mixed::Mixed;

#[test]
fn a_book_is_converted_to_what_is_appended_with_the_rate_twice() {
    let (mut chance, mut changed, mut kept) = (Chance(710), 0, 0);
    let (mut triggers, mut negative_zeros, mut limits, mut longest) = (0, 0, 0, 0);
    for _ in 0..400 {
        let Some(Mixed { book, old, fixed }) = Mixed::new(&mut chance, 2, 8) else { continue };
        let made = convert(&old).unwrap();
        assert!(made == book.bytes() && made == converted(book.zone(), &old));
        // Again, and of a book without such hours, nothing is changed.
        assert!(convert(&made).unwrap() == made);
        let taken = Book::take_up(&made).unwrap();
        assert_eq!((taken.hours(), taken.state()), (book.hours(), book.state()));
        for (place, entry) in taken.entries().enumerate() {
            match fixed.contains(&place) {
                true => changed += 1,
                false => kept += 1,
            }
            triggers += usize::from(entry.demand().ach_to_trigger_heating.is_some());
            negative_zeros += usize::from(
                fixed.contains(&place) && entry.demand().ach_cooling.to_bits() == 1 << 63,
            );
            limits += usize::from(entry.held_limit().is_some());
        }
        longest = longest.max(book.zone().layout().elements());
    }
    assert!(changed > 400 && kept > 400 && longest == 24, "{changed} {kept} {longest}");
    assert!(
        triggers > 100 && negative_zeros > 10 && limits > 100,
        "{triggers} {negative_zeros} {limits}"
    );
}

#[test]
fn a_rest_is_left_out() {
    let mut chance = Chance(711);
    let mut cut_short = 0;
    for _ in 0..60 {
        let Some(Mixed { book, old, .. }) = Mixed::new(&mut chance, 2, 4) else { continue };
        let entries: Vec<_> = book.zone().layout().entries(&old).collect();
        for cut in book.zone().head().len()..=old.len() {
            let used = entries.iter().filter(|entry| entry.end <= cut).map(|entry| entry.end).max();
            let used = used.unwrap_or(book.zone().head().len());
            // Every place near the ends of entries, and some between.
            if cut - used > 6 && chance.below(20) > 0 {
                continue;
            }
            assert!(convert(&old[..cut]).unwrap() == book.bytes()[..used], "{cut} bytes");
            cut_short += usize::from(used < cut);
        }
    }
    assert!(cut_short > 1000, "{cut_short}");
}

#[test]
fn a_book_of_no_hours_is_its_head() {
    let head = house_p().to_bytes();
    for rest in [&[][..], &[0; 4], &[0, 0, 0, 212, 1], &[0; 3]] {
        assert_eq!(convert(&[&head[..], rest].concat()), Ok(head.clone()));
    }
}

/// A book of House P whose hours have these versions.
fn book(versions: &[u64]) -> Book {
    let mut book = Book::begin(&house_p()).unwrap();
    for version in versions {
        book.append(&hour_p(21.0, 24.0), Rule::new(*version, Limits::of_heating(100.0))).unwrap();
    }
    book
}

#[test]
fn a_book_with_entries_of_version_1_is_refused() {
    let sentence = "entry 0 is of version 1, and a book with entries of version 1 is not converted";
    for versions in [&[1][..], &[1, 1, 1], &[1, 2], &[1, 3, 3], &[1, 2, 2, 3]] {
        let book = book(versions);
        let all: Vec<usize> = (0..versions.len()).collect();
        // Whatever the code of the hours, in version 1 and behind it.
        for fixed in [&[][..], &all[..1], &all[1..], &all] {
            let old = with_fixed_rates(&book, fixed.iter().copied());
            let refusal = convert(&old).unwrap_err();
            assert_eq!((refusal.number(), refusal.index()), (24, 0));
            assert_eq!(refusal.reason(), Reason::Version1Entry);
            assert_eq!(refusal.to_string(), format!("{sentence} (refusal 24)"));
            // A cut leaves no hour of version 1 only where it leaves none at all.
            assert_eq!(convert(&old[..395]), Ok(old[..180].to_vec()));
            assert_eq!(convert(&old[..396]).unwrap_err().number(), 24);
        }
    }
    for versions in [&[2][..], &[3], &[2, 2, 3]] {
        assert_eq!(convert(book(versions).bytes()), Ok(book(versions).bytes().to_vec()));
    }
}

#[test]
fn what_a_take_up_refuses_comes_first() {
    let mut unsettled = house_p();
    unsettled.temp_setpnt_vent_init = 19.0;
    let one = with_fixed_rates(&book(&[1, 2, 3]), 0..3);
    let two = with_fixed_rates(&book(&[2, 2, 3]), 0..3);
    let changed = |bytes: &[u8], at: usize, with: u8| {
        let mut bytes = bytes.to_vec();
        bytes[at] ^= with;
        bytes
    };
    for bytes in [one, two] {
        for (bytes, number, index) in [
            (vec![], 1, 0),
            (bytes[..179].to_vec(), 1, 0),
            (changed(&bytes, 3, 1), 2, 0),
            (changed(&bytes, 4, 2), 3, 0),
            (changed(&bytes, 5, 2), 4, 0),
            (changed(&bytes, 59, 0x80), 5, 1),
            (unsettled.to_bytes(), 11, 0),
            (changed(&bytes, 180 + 5 + 96, 2), 18, 0),
            (changed(&bytes, 180 + 5 + 105, 1), 18, 0),
            (changed(&bytes, 180 + 216 + 180, 1), 18, 1),
            (changed(&bytes, 180 + 2 * 216 + 4, 8), 18, 2),
            ([&bytes[..], &[0, 0, 0, 0, 9]].concat(), 18, 3),
        ] {
            let refusal = convert(&bytes).unwrap_err();
            assert_eq!((refusal.number(), refusal.index()), (number, index));
            assert_eq!(Book::take_up(&bytes).unwrap_err(), refusal);
        }
    }
}

/// The refusal of a take-up, that of version 1, or the book that is worked out from the bytes.
fn expected(bytes: &[u8]) -> Result<Vec<u8>, u32> {
    let book = Book::take_up(bytes).map_err(|refusal| refusal.number() + 256 * refusal.index())?;
    match book.entries().any(|entry| entry.version() == ENTRY_VERSION_1) {
        true => Err(24),
        false => Ok(converted(book.zone(), book.bytes())),
    }
}

/// A byte is changed, bytes are cut off or put behind, a code or a version is another.
fn damage(bytes: &mut Vec<u8>, zone: &Zone, chance: &mut Chance) {
    let at = chance.below(bytes.len() as u64 + 1) as usize;
    let bit = 1 << chance.below(8);
    let starts: Vec<_> = zone.layout().entries(bytes).map(|entry| entry.start).collect();
    let entry = if starts.is_empty() { bytes.len() } else { chance.one_of(&starts) };
    let rates = entry + 5 + CODE + chance.below(17) as usize;
    let (at, with) = match chance.below(8) {
        0 => return bytes.truncate(at),
        1 => return bytes.extend(vec![chance.next() as u8; chance.below(9) as usize]),
        2 => (at, bit),
        3 => (chance.one_of(&[0, 3, 4, 5, 6, 57, 58]), bit),
        4 => (entry + 4, chance.one_of(&[1, 2, 3, 8])),
        5 => (entry + 5 + CODE, chance.one_of(&[1, 2])),
        6 => (entry + 5 + SECOND.start, 0x80),
        _ => (rates, bit),
    };
    if let Some(byte) = bytes.get_mut(at) {
        *byte ^= with;
    }
}

#[test]
fn damaged_books_are_answered_as_by_a_take_up() {
    let (mut chance, mut met, mut good) = (Chance(712), [0; 25], 0);
    for _ in 0..1500 {
        let least = chance.one_of(&[1, 2, 2]);
        let Some(Mixed { book, mut old, .. }) = Mixed::new(&mut chance, least, 4) else { continue };
        for _ in 0..chance.below(3) {
            damage(&mut old, book.zone(), &mut chance);
        }
        let answer = convert(&old);
        match (expected(&old), answer) {
            (Ok(made), answer) => {
                assert!(answer.unwrap() == made);
                good += 1;
            }
            (Err(number), answer) => {
                let refusal = answer.unwrap_err();
                assert_eq!(refusal.number() + 256 * refusal.index(), number);
                if number != 24 {
                    assert_eq!(Book::take_up(&old).unwrap_err(), refusal);
                }
                met[number as usize & 255] += 1;
            }
        }
    }
    assert!([1, 2, 3, 4, 18, 24].iter().all(|number| met[*number] > 0), "{met:?}");
    assert!(met[18] > 100 && met[24] > 50 && good > 200, "{met:?} {good}");
}
