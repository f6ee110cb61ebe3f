//! Entry version 3 in books: entries of several lengths, cuts, and what is turned away.
#[path = "common/limited.rs"]
mod limited;

use hem_zone::{
    Book, Conditions, HeldLimit, Limits, Rule, ENTRY_VERSION_1, ENTRY_VERSION_2, ENTRY_VERSION_3,
};
use limited::{heated, hour, house};

const LIMITS: Limits = Limits { heating: 10.25, cooling: 5.5 };

/// The hours of a book of three versions, each by its rule, heated and cooled in turn.
fn hours() -> Vec<(Conditions, Rule)> {
    let rules: [Rule; 6] = [
        ENTRY_VERSION_1.into(),
        ENTRY_VERSION_1.into(),
        ENTRY_VERSION_2.into(),
        LIMITS.into(),
        LIMITS.into(),
        Limits { heating: -0.0, cooling: 2.0 }.into(),
    ];
    let hour = |i: usize| match i % 2 {
        0 => hour(22.0 + 0.1 * i as f64, 24.0, 8.0),
        _ => hour(15.0, 18.0 - 0.1 * i as f64, 8.0),
    };
    rules.into_iter().enumerate().map(|(i, rule)| (hour(i), rule)).collect()
}

fn book() -> Book {
    let mut book = Book::begin(&house()).unwrap();
    for (hour, rule) in hours() {
        book.append(&hour, rule).unwrap();
    }
    book
}

/// Where the entries of the book begin, and where the last ends.
const STARTS: [usize; 7] = [180, 396, 612, 828, 1060, 1292, 1524];

#[test]
fn a_book_of_three_versions_is_read_by_their_lengths() {
    let book = book();
    assert_eq!((book.hours(), book.last_version(), book.bytes().len()), (6, 3, 1524));
    let taken = Book::take_up(book.bytes()).unwrap();
    assert_eq!((taken.bytes(), taken.state()), (book.bytes(), book.state()));
    assert_eq!((taken.hours(), taken.last_rule()), (6, book.last_rule()));
    let mut state = book.zone().start_up().unwrap();
    for (i, (hour, rule)) in hours().into_iter().enumerate() {
        for book in [&book, &taken] {
            let entry = book.entry(i).unwrap();
            assert_eq!(entry.bytes(), &book.bytes()[STARTS[i]..STARTS[i + 1]]);
            assert_eq!(entry.conditions(), hour);
            assert_eq!((entry.rule(), entry.limits()), (rule, rule.limits()));
            let (after, demand, _) = book.zone().hour_step(&state, &hour, rule).unwrap();
            assert_eq!((entry.demand(), entry.state()), (demand, after));
        }
        state = book.entry(i).unwrap().state();
    }
    assert!(book.entry(6).is_none());
    assert_eq!(book.entries().count(), 6);
    let held: Vec<_> = book.entries().map(|entry| entry.held_limit()).collect();
    let expected = [
        None,
        None,
        None,
        Some(HeldLimit::Cooling),
        Some(HeldLimit::Heating),
        Some(HeldLimit::Cooling),
    ];
    assert_eq!(held, expected);
    let delivered: Vec<f64> = book.entries().skip(3).map(|entry| entry.delivered()).collect();
    assert_eq!(delivered, [-5.5, 10.25, -2.0]);
    assert!(book.entry(0).unwrap().delivered() == book.entry(0).unwrap().power());
}

#[test]
fn an_entry_of_version_3_is_version_2s_with_its_limits() {
    let of = |rule: Rule| {
        let mut book = Book::begin(&house()).unwrap();
        book.append(&heated(10.0), rule).unwrap().to_vec()
    };
    let (two, three) = (of(ENTRY_VERSION_2.into()), of(Limits::of_heating(5000.0).into()));
    let limits = [5000.0_f64, 1e7].map(f64::to_be_bytes).concat();
    assert_eq!((&two[..5], &three[..5]), (&[0, 0, 0, 212, 2][..], &[0, 0, 0, 228, 3][..]));
    assert_eq!(three[5..], [&two[5..159], &limits, &two[159..]].concat());
}

#[test]
fn every_cut_keeps_the_whole_entries_and_goes_on_to_the_same_book() {
    let whole = book();
    for cut in 180..=whole.bytes().len() {
        let mut taken = Book::take_up(&whole.bytes()[..cut]).unwrap();
        let held = STARTS.iter().filter(|start| **start <= cut).count() - 1;
        assert_eq!((taken.hours(), taken.bytes().len()), (held, STARTS[held]), "{cut} bytes");
        assert_eq!(taken.last_rule(), held.checked_sub(1).map(|last| hours()[last].1));
        for (hour, rule) in &hours()[held..] {
            taken.append(hour, *rule).unwrap();
        }
        assert_eq!((taken.bytes(), taken.state()), (whole.bytes(), whole.state()));
    }
}

#[test]
fn a_book_rises_to_version_3_and_never_falls_from_it() {
    for first in [ENTRY_VERSION_1, ENTRY_VERSION_2, ENTRY_VERSION_3] {
        let mut book = Book::begin(&house()).unwrap();
        book.append(&heated(0.0), Rule::new(first, LIMITS)).unwrap();
        book.append(&heated(0.0), LIMITS).unwrap();
        let before = book.clone();
        for fallen in [ENTRY_VERSION_1, ENTRY_VERSION_2] {
            let refusal = book.append(&heated(0.0), fallen).unwrap_err();
            assert_eq!((refusal.number(), refusal.index()), (18, 2));
        }
        assert_eq!(book.append(&heated(0.0), Limits::of_heating(-1.0)).unwrap_err().number(), 19);
        assert_eq!((book.bytes(), book.state()), (before.bytes(), before.state()));
        assert_eq!((book.hours(), book.entries().count(), book.last_version()), (2, 2, 3));
        // Other limits may follow.
        book.append(&heated(0.0), Limits::of_heating(0.0)).unwrap();
        assert_eq!(Book::take_up(book.bytes()).unwrap().hours(), 3);
    }
}

// ---- what is turned away ----

#[track_caller]
fn is_false(bytes: &[u8], place: usize, fault: &str) {
    let refusal = Book::take_up(bytes).unwrap_err();
    assert_eq!((refusal.number(), refusal.index() as usize), (18, place));
    assert_eq!(refusal.sentence(), format!("entry {place}: {fault}"));
}

#[test]
fn a_changed_limit_or_version_is_found() {
    let whole = book();
    let changed = |at: usize, to: &[u8]| {
        let mut bytes = whole.bytes().to_vec();
        bytes[at..at + to.len()].copy_from_slice(to);
        bytes
    };
    // The fifth hour got its heating limit, whose bits are all looked at; its cooling limit has no effect.
    let limits = STARTS[4] + 159;
    let other = "its stored temperatures are not what the hour gives";
    is_false(&changed(limits, &10.26_f64.to_be_bytes()), 4, other);
    let fault = "its heating_limit is NaN, out of its range 0 to 10,000,000";
    is_false(&changed(limits, &f64::NAN.to_be_bytes()), 4, fault);
    let fault = "its cooling_limit is -1, out of its range 0 to 10,000,000";
    is_false(&changed(limits + 8, &(-1.0_f64).to_be_bytes()), 4, fault);
    let another = changed(limits + 8, &5.25_f64.to_be_bytes());
    let another = Book::take_up(&another).unwrap();
    assert_eq!(another.entry(4).unwrap().limits(), Some(Limits { cooling: 5.25, ..LIMITS }));
    assert_eq!(another.state(), whole.state());
    // Another version calls for another length.
    is_false(&changed(STARTS[2] + 4, &[3]), 2, "its length is 212, not 228");
    let fault = "its version is 2, below that of the entry before it, 3";
    is_false(&changed(STARTS[4] + 4, &[2]), 4, fault);
    is_false(&changed(STARTS[3] + 4, &[2]), 3, "its length is 228, not 212");
}

#[test]
fn a_rest_of_unknown_version_is_a_false_entry() {
    for (count, whole) in [(6, book()), (0, Book::begin(&house()).unwrap())] {
        let with = |rest: &[u8]| [whole.bytes(), rest].concat();
        for byte in [0, 4, 255] {
            let rest = [0, 0, 0, 212, byte, 1, 2, 3];
            for length in 0..5 {
                let taken = Book::take_up(&with(&rest[..length])).unwrap();
                assert_eq!((taken.hours(), taken.bytes()), (count, whole.bytes()));
            }
            let fault = format!("its version is {byte}, not 1, 2 or 3");
            for length in 5..=8 {
                is_false(&with(&rest[..length]), count, &fault);
            }
            is_false(&with(&[&rest[..], &[0; 500]].concat()), count, &fault);
        }
    }
}

#[test]
fn a_short_rest_of_a_lower_version_is_dropped_and_a_whole_one_is_false() {
    let whole = book();
    let first = &whole.bytes()[STARTS[0]..STARTS[1]];
    let with = |length: usize| [whole.bytes(), &first[..length]].concat();
    for length in [5, 100, 215] {
        assert_eq!(Book::take_up(&with(length)).unwrap().bytes(), whole.bytes());
    }
    is_false(&with(216), 6, "its version is 1, below that of the entry before it, 3");
    // As long as an entry of version 2, and up to a byte less than its own, a rest of version 3 is not whole.
    for length in [216, 231] {
        let three = [whole.bytes(), &whole.bytes()[STARTS[3]..STARTS[3] + length]].concat();
        let taken = Book::take_up(&three).unwrap();
        assert_eq!((taken.hours(), taken.bytes()), (6, whole.bytes()));
    }
}
