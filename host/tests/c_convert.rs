//! The converter at the C interface: what it writes and leaves, what it refuses, in which order, and that nothing is
//! written then. And the fixed rate, rate code 0, to the other functions.
#[path = "common/fixed_rate.rs"]
mod fixed_rate;
#[path = "common/lent.rs"]
mod lent;

use fixed_rate::{put_fixed, CODE, FIRST, SECOND};
use hem_zone::samples::{hour_p, house_p};
use hem_zone::{AirChangesPerHour, Conditions};
use lent::*;

const HEAD: usize = 180;
/// What an entry of House P takes, by version.
const ENTRIES: [usize; 4] = [0, 216, 216, 232];

/// An hour of House P with target and windows open both this rate.
fn with_rate(rate: f64) -> Vec<u8> {
    Conditions { ach: AirChangesPerHour::one_rate(rate), ..hour_p(21.0, 24.0) }.to_bytes()
}

fn fixed(rate: f64) -> Vec<u8> {
    fixed_rate::fixed(&with_rate(rate))
}

/// The rates of an hour by its place in a book.
fn rate(place: usize) -> f64 {
    [0.5, -0.0, 0.0, 3.25, 1000.0][place % 5]
}

/// A book whose hours have these versions and one rate each, twice or, in the second one, fixed.
fn books(versions: &[u64]) -> (Vec<u8>, Vec<u8>) {
    let mut lent = Lent::new(HEAD + 232 * versions.len());
    assert_eq!(begin(&p(), &mut lent), 0);
    let mut old = p();
    for (place, version) in versions.iter().enumerate() {
        let at = lent.used as usize;
        let hour = with_rate(rate(place));
        assert_eq!(limited_append(&p(), &hour, *version, [90.0, 0.0], &mut lent), 0);
        old.extend_from_slice(&lent.buf[at..lent.used as usize]);
        put_fixed(&mut old[at + 5..at + 5 + 154]);
    }
    lent.buf.truncate(lent.used as usize);
    (lent.buf, old)
}

const FIVE: [u64; 5] = [2, 2, 2, 3, 3];

// ---- what is written ----

/// The call is accepted, writes this book, its hours and its length, and nothing else.
#[track_caller]
fn makes(bytes: &[u8], room: usize, book: &[u8], hours: u64) {
    let mut lent = Lent::new(room);
    let mut expected = lent.seen();
    assert_eq!(convert(bytes, &mut lent), 0);
    expected.3[..book.len()].copy_from_slice(book);
    expected.1[1] = hours;
    expected.1[2] = book.len() as u64;
    assert!(lent.seen() == expected);
}

#[test]
fn the_book_its_hours_and_its_length_are_written() {
    let (book, old) = books(&FIVE);
    assert_eq!(book.len(), old.len());
    for room in [0, 1, 7, 4096] {
        makes(&old, old.len() + room, &book, 5);
        // Again, nothing is changed.
        makes(&book, old.len() + room, &book, 5);
    }
    // Only the code and the second rate are others.
    let differ: Vec<usize> = (0..old.len()).filter(|at| old[*at] != book[*at]).collect();
    let mut start = HEAD + 5;
    for (place, version) in FIVE.iter().enumerate() {
        assert_eq!(book[start + FIRST.start..start + FIRST.end], rate(place).to_be_bytes());
        assert_eq!(book[start + SECOND.start..start + SECOND.end], rate(place).to_be_bytes());
        assert!(differ.contains(&(start + CODE)));
        start += ENTRIES[*version as usize];
    }
    let of_rates = |at: &usize| {
        let start = |place: usize| HEAD + 5 + 216 * place.min(3) + 232 * place.saturating_sub(3);
        (0..5).any(|place| (CODE..SECOND.end).contains(&at.wrapping_sub(start(place))))
    };
    assert!(differ.iter().all(of_rates), "{differ:?}");
}

#[test]
fn a_book_of_no_hours_is_its_head() {
    makes(&p(), HEAD, &p(), 0);
    makes(&[&p()[..], &[0, 0, 0, 212]].concat(), HEAD + 9, &p(), 0);
    // A rest of version 1 that is not whole is no entry.
    makes(&[&p()[..], &[0, 0, 0, 212, 1, 9, 9]].concat(), HEAD, &p(), 0);
}

#[test]
fn a_rest_is_not_converted() {
    let (book, old) = books(&FIVE);
    for cut in HEAD..=old.len() {
        let mut used = HEAD;
        let mut hours = 0;
        for version in FIVE {
            if used + ENTRIES[version as usize] > cut {
                break;
            }
            used += ENTRIES[version as usize];
            hours += 1;
        }
        // As many bytes as the book takes are enough, with or without the rest.
        makes(&old[..cut], used, &book[..used], hours);
        makes(&old[..cut], cut + 9, &book[..used], hours);
    }
}

#[test]
fn the_bytes_may_stand_at_any_address() {
    let (book, old) = books(&[2, 3]);
    for offset in 0..16 {
        let bytes = [&vec![7; offset][..], &old].concat();
        makes(&bytes[offset..], old.len(), &book, 2);
        let mut out = vec![0xA5_u8; offset + old.len() + 3];
        let (mut count, mut used) = (MARK_COUNT, MARK_COUNT);
        let place = out[offset..offset + old.len() + 1].as_mut_ptr();
        let answer = unsafe {
            let room = old.len() + 1;
            hem_zone::ffi::hem_convert(old.as_ptr(), old.len(), place, room, &mut count, &mut used)
        };
        assert_eq!((answer, count, used), (0, 2, old.len() as u64));
        let expected = [&vec![0xA5; offset][..], &book, &[0xA5; 3]].concat();
        assert!(out == expected);
    }
}

// ---- refusals ----

#[test]
fn an_output_that_is_too_short() {
    for versions in [&FIVE[..], &[2], &[3], &[]] {
        let (book, old) = books(versions);
        for room in [0, 1, HEAD - 1, HEAD, old.len().saturating_sub(216), old.len() - 1] {
            if room < old.len() {
                refused(Lent::new(room), 16, |lent| convert(&old, lent));
                refused(Lent::new(room), 16, |lent| convert(&book, lent));
            }
        }
    }
}

#[test]
fn an_entry_of_version_1_comes_before_the_output() {
    for versions in [&[1][..], &[1, 1], &[1, 2], &[1, 3], &[1, 2, 3]] {
        let (book, old) = books(versions);
        for bytes in [&book, &old] {
            for room in [0, 1, HEAD, old.len(), old.len() + 100] {
                refused(Lent::new(room), 24, |lent| convert(bytes, lent));
            }
        }
        // Without its hours there is none of version 1.
        makes(&old[..HEAD + 215], HEAD, &p(), 0);
    }
}

#[test]
fn the_refusals_of_a_take_up_come_first() {
    let mut unsettled = house_p();
    unsettled.temp_setpnt_vent_init = 19.0;
    let mut area = house_p();
    area.elements[0].area = -1.0;
    let full = books(&[2; 8784]).1;
    makes(&full, full.len(), &books(&[2; 8784]).0, 8784);
    for good in [books(&[2, 2, 3]).1, books(&[1, 2, 3]).1] {
        let changed = |at: usize, with: u8| {
            let mut bytes = good.clone();
            bytes[at] ^= with;
            bytes
        };
        for (bytes, answer) in [
            (vec![], 1),
            (good[..179].to_vec(), 1),
            (changed(3, 1), 2),
            (changed(4, 2), 3),
            (changed(5, 2), 4),
            (area.to_bytes(), 5 + 256),
            (unsettled.to_bytes(), 11),
            ([&full[..], &full[180..396]].concat(), 17),
            (changed(HEAD + 5 + CODE, 2), 18),
            (changed(HEAD + 5 + SECOND.end - 1, 1), 18),
            (changed(HEAD + 216 + 180, 1), 18 + 256),
            (changed(HEAD + 2 * 216 + 4, 8), 18 + 2 * 256),
            ([&good[..], &[0, 0, 0, 0, 9]].concat(), 18 + 3 * 256),
        ] {
            let mut lent = Lent::new(0);
            assert_eq!(take_up(&bytes, &mut lent), answer);
            for room in [0, HEAD, good.len(), bytes.len()] {
                refused(Lent::new(room), answer, |lent| convert(&bytes, lent));
            }
        }
    }
}

// ---- the fixed rate ----

#[test]
fn the_other_calls_refuse_a_fixed_rate_and_write_nothing() {
    for rate in [0.5, 0.0, -0.0, 1000.0, -1.0, f64::NAN] {
        let fixed = fixed(rate);
        refused(Lent::at_twenty(0), 8, |lent| demand(&p(), &fixed, lent));
        for own in [[0.0, 1.0, 0.5], [f64::NAN; 3]] {
            refused(Lent::at_twenty(0), 8, |lent| update(&p(), &fixed, own, lent));
        }
        for version in 1..=3 {
            for limits in [[90.0, 0.0], [f64::NAN, -1.0]] {
                refused(Lent::at_twenty(0), 8, |lent| {
                    limited_step(&p(), &fixed, version, limits, lent)
                });
                // Also where the buffer cannot hold the entry.
                for room in [HEAD, HEAD + 300] {
                    refused(held(room, 0, 1), 8, |lent| {
                        limited_append(&p(), &fixed, version, limits, lent)
                    });
                }
            }
        }
    }
}

/// A book of this state: so many entries held, the last of this version.
fn held(room: usize, count: u64, last_version: u64) -> Lent {
    let mut lent = Lent::at_twenty(room);
    (lent.count, lent.used, lent.last_version) = (count, HEAD as u64, last_version);
    lent
}

#[test]
fn what_is_tested_before_it() {
    let (fixed, bad) = (fixed(0.5), [f64::NAN; 2]);
    refused(held(0, 8784, 3), 17, |lent| limited_append(&p(), &fixed, 1, bad, lent));
    refused(held(0, 5, 3), 18 + 5 * 256, |lent| limited_append(&p(), &fixed, 2, bad, lent));
    refused(held(0, 5, 1), 18 + 5 * 256, |lent| limited_append(&p(), &fixed, 4, bad, lent));
    refused(Lent::at_twenty(0), 18, |lent| limited_step(&p(), &fixed, 257, bad, lent));
    let mut wrong = held(0, 5, 1);
    wrong.nodes = 4;
    refused(wrong, 6, |lent| limited_append(&p(), &fixed, 1, bad, lent));
    refused(Lent::new(0), 6, |lent| demand(&p(), &fixed, lent));
    refused(Lent::new(0), 6, |lent| update(&p(), &fixed, [f64::NAN; 3], lent));
    refused(Lent::at_twenty(0), 7, |lent| demand(&p(), &fixed[1..], lent));
    refused(Lent::at_twenty(0), 7, |lent| update(&p(), &fixed[1..], [f64::NAN; 3], lent));
    refused(held(0, 5, 1), 7, |lent| limited_append(&p(), &fixed[1..], 1, bad, lent));
    refused(Lent::at_twenty(0), 1, |lent| demand(&p()[..100], &fixed, lent));
}

#[test]
fn why_and_a_take_up_take_it() {
    for (rate, at) in [(0.5, 20.0), (-0.0, 22.0), (0.0, 30.0), (1000.0, 20.0)] {
        let mut told = [Lent::at_twenty(0), Lent::at_twenty(0)];
        told.iter_mut().for_each(|lent| lent.temps[..3].fill(at));
        let [of_fixed, of_twice] = &mut told;
        assert_eq!(why(&p(), &fixed(rate), of_fixed), 0);
        assert_eq!(why(&p(), &with_rate(rate), of_twice), 0);
        assert!(of_fixed.seen() == of_twice.seen());
        assert_eq!(of_fixed.reason, 1);
    }
    for versions in [&FIVE[..], &[1, 1, 2, 3]] {
        let (book, old) = books(versions);
        let mut taken = [Lent::new(0), Lent::new(0)];
        let [of_old, of_book] = &mut taken;
        assert_eq!((take_up(&old, of_old), take_up(&book, of_book)), (0, 0));
        assert!(of_old.seen() == of_book.seen());
        assert_eq!((of_old.count, of_old.used), (versions.len() as u64, old.len() as u64));
        for value in [19.0, 20.5, 21.0] {
            assert_eq!(first_above(&old, value), first_above(&book, value));
            assert_eq!(hours_within(&old, value, 24.0), hours_within(&book, value, 24.0));
            assert_eq!(nearest_hour(&old, value), nearest_hour(&book, value));
        }
    }
}
