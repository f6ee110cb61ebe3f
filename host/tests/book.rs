//! Books: what is held, what a cut leaves, what take-up turns away.
use hem_zone::samples::{hour_p, house_p};
use hem_zone::{AirChangesPerHour, Book, Conditions, ENTRY_VERSION_2};

/// Hours of House P that differ from each other, some of them with windows.
fn hours(count: usize) -> Vec<Vec<u8>> {
    (0..count)
        .map(|i| {
            let warm = i as f64 * 0.37 % 9.0;
            let hour = hour_p(19.0 + warm % 2.0, 23.0 + warm % 3.0);
            let windows =
                AirChangesPerHour::TargetAndWindowsOpen { ach_target: 0.5, ach_windows_open: 4.0 };
            let ach = if i % 3 == 1 { windows } else { hour.ach };
            let temp_setpnt_cool_vent = 22.0;
            let gains_internal = [-2500.0, 1800.0, 4000.0, 0.0][i % 4];
            Conditions { ach, temp_setpnt_cool_vent, gains_internal, ..hour }.to_bytes()
        })
        .collect()
}

fn book(count: usize) -> Book {
    let mut book = Book::begin(&house_p().to_bytes()).unwrap();
    for hour in hours(count) {
        book.append(&hour, ENTRY_VERSION_2).unwrap();
    }
    book
}

#[test]
fn a_new_book_is_its_head() {
    let longer = [&house_p().to_bytes()[..], b"and more"].concat();
    let book = Book::begin(&longer).unwrap();
    assert_eq!(book.bytes(), house_p().to_bytes());
    assert_eq!((book.hours(), book.state().temps()), (0, &[20.0; 3][..]));
    assert!(book.entry(0).is_none());
}

#[test]
fn entries_are_the_hour_steps() {
    let book = book(30);
    let mut state = book.zone().start_up().unwrap();
    for (entry, hour) in book.entries().zip(hours(30)) {
        assert_eq!(entry.conditions_bytes(), hour);
        assert_eq!(entry.conditions().to_bytes(), hour);
        let (after, demand, _) = book.zone().hour_step(&state, &hour, ENTRY_VERSION_2).unwrap();
        assert_eq!(entry.version(), ENTRY_VERSION_2);
        assert_eq!(entry.demand(), demand);
        assert_eq!(entry.state(), after);
        state = after;
    }
    assert_eq!(book.state(), &state);
    assert!(book.entries().any(|e| e.demand().space_heat_demand > 0.0));
    assert!(book.entries().any(|e| e.demand().space_cool_demand < 0.0));
    assert!(book.entries().any(|e| e.demand().ach_cooling > 0.5));
}

#[test]
fn append_gives_the_bytes_that_it_added() {
    let mut book = book(2);
    let before = book.bytes().to_vec();
    let added = book.append(&hours(3)[2], ENTRY_VERSION_2).unwrap().to_vec();
    assert_eq!(added.len(), 216);
    assert_eq!(book.bytes(), [before, added].concat());
}

#[test]
fn a_refused_append_leaves_the_book() {
    let mut book = book(2);
    let before = book.clone();
    let crossed = hour_p(22.0, 21.0).to_bytes();
    assert_eq!(book.append(&crossed, ENTRY_VERSION_2).unwrap_err().number(), 10);
    assert_eq!(book.append(&[], ENTRY_VERSION_2).unwrap_err().number(), 7);
    assert_eq!((book.bytes(), book.state()), (before.bytes(), before.state()));
    assert_eq!(book.hours(), 2);
}

#[test]
fn house_p_cut_at_395_and_396() {
    let book = book(1);
    assert_eq!(Book::take_up(&book.bytes()[..395]).unwrap().hours(), 0);
    assert_eq!(Book::take_up(&book.bytes()[..396]).unwrap().hours(), 1);
}

#[test]
fn every_cut_keeps_the_whole_entries_and_goes_on_to_the_same_book() {
    let (whole, hours) = (book(3), hours(3));
    for cut in 180..=whole.bytes().len() {
        let mut taken = Book::take_up(&whole.bytes()[..cut]).unwrap();
        assert_eq!(taken.hours(), (cut - 180) / 216);
        assert_eq!(taken.bytes(), &whole.bytes()[..180 + taken.hours() * 216]);
        for hour in &hours[taken.hours()..] {
            taken.append(hour, ENTRY_VERSION_2).unwrap();
        }
        assert_eq!((taken.bytes(), taken.state()), (whole.bytes(), whole.state()));
    }
    for cut in 0..180 {
        assert_eq!(Book::take_up(&whole.bytes()[..cut]).unwrap_err().number(), 1);
    }
}

#[test]
fn no_changed_result_is_taken_up() {
    // A third hour behind it, so that the second is whole in every version.
    let whole = book(3);
    let results = 180 + 216 + 5 + 154;
    let places = (180 + 216..180 + 216 + 5).chain(results..180 + 2 * 216);
    for place in places {
        for bit in 0..8 {
            let mut bytes = whole.bytes().to_vec();
            bytes[place] ^= 1 << bit;
            let refusal = Book::take_up(&bytes).unwrap_err();
            assert_eq!((refusal.number(), refusal.index()), (18, 1), "byte {place}, bit {bit}");
        }
    }
}
