//! Books that hold the fixed rate, rate code 0: they are taken up, each hour as its version judges it, and an hour that a
//! cut lost is not appended again.
#[path = "common/fixed_rate.rs"]
mod fixed_rate;
#[path = "common/limited.rs"]
mod limited;

use fixed_rate::*;
use hem_zone::samples::{hour_p, house_p};
use hem_zone::*;

/// Hours of a house with a plant, each with one rate, and the rules of a book from version 1 to 3.
fn hours() -> Vec<(Conditions, Rule)> {
    let limits = Limits { heating: 10.25, cooling: 5.5 };
    let rules: [Rule; 7] = [
        ENTRY_VERSION_1.into(),
        ENTRY_VERSION_1.into(),
        ENTRY_VERSION_2.into(),
        ENTRY_VERSION_2.into(),
        limits.into(),
        limits.into(),
        Limits { heating: -0.0, cooling: 2.0 }.into(),
    ];
    let hour = |i: usize| {
        let ach = AirChangesPerHour::one_rate([0.5, -0.0, 0.0, 1000.0, 5e-324][i % 5]);
        let hour = match i % 2 {
            0 => limited::hour(22.0 + 0.1 * i as f64, 24.0, 8.0),
            _ => limited::hour(15.0, 18.0 - 0.1 * i as f64, 8.0),
        };
        Conditions { ach, temp_setpnt_cool_vent: 23.0, ..hour }
    };
    rules.into_iter().enumerate().map(|(i, rule)| (hour(i), rule)).collect()
}

fn book() -> Book {
    let mut book = Book::begin(&limited::house()).unwrap();
    for (hour, rule) in hours() {
        book.append(&hour, rule).unwrap();
    }
    book
}

/// What the questions answer about a book.
fn questions(bytes: &[u8]) -> impl PartialEq + std::fmt::Debug {
    let values = [15.0, 18.0, 20.0, 21.5, 23.0];
    values.map(|v| {
        (first_above(bytes, v), hours_within(bytes, v, 22.0_f64.max(v)), nearest_hour(bytes, v))
    })
}

#[test]
fn stored_hours_of_every_version_are_taken_up_as_they_are_judged() {
    let book = book();
    let all = with_a_twin(&book);
    assert_eq!(all.len(), book.hours());
    // Every hour, each by itself, every other.
    let single = all.iter().map(|hour| vec![*hour]);
    let sets = single.chain([all.clone(), all.iter().copied().step_by(2).collect(), vec![]]);
    for hours in sets {
        let old = with_fixed_rates(&book, hours.iter().copied());
        let taken = Book::take_up(&old).unwrap();
        assert_eq!((taken.bytes(), taken.state()), (&old[..], book.state()));
        assert_eq!(
            (taken.hours(), taken.last_version(), taken.last_rule()),
            (book.hours(), book.last_version(), book.last_rule())
        );
        assert_eq!(questions(&old), questions(book.bytes()));
        for (place, (held, pair)) in taken.entries().zip(book.entries()).enumerate() {
            assert_eq!(held.conditions().has_fixed_rate(), hours.contains(&place));
            assert_eq!(held.conditions().with_rate_twice(), pair.conditions());
            assert_eq!((held.demand(), held.state()), (pair.demand(), pair.state()));
            assert_eq!(held.demand().ach_to_trigger_heating, None);
        }
    }
}

#[test]
fn an_hour_that_a_cut_lost_is_refused_when_it_is_offered_anew() {
    let book = book();
    let old = with_fixed_rates(&book, with_a_twin(&book));
    let starts: Vec<usize> =
        book.zone().layout().entries(&old).map(|e| e.start).chain([old.len()]).collect();
    for cut in starts[0]..=old.len() {
        let held = starts.iter().filter(|start| **start <= cut).count() - 1;
        let taken = Book::take_up(&old[..cut]).unwrap();
        assert_eq!((taken.hours(), taken.bytes()), (held, &old[..starts[held]]), "{cut} bytes");
        if ![0, 1, 4].contains(&(cut - starts[held])) {
            continue;
        }
        // The lost hours are refused as they were and accepted with the rate twice.
        let mut again = taken;
        for (hour, rule) in &hours()[held..] {
            let before = again.bytes().to_vec();
            let lost = fixed(&hour.to_bytes());
            let refusal = again.append(&lost, *rule).unwrap_err();
            assert_eq!((refusal.number(), refusal.index()), (8, 0));
            assert_eq!(again.bytes(), before);
            again.append(hour, *rule).unwrap();
        }
        assert_eq!(again.state(), book.state());
        let (kept, new) = again.bytes().split_at(starts[held]);
        assert_eq!((kept, new), (&old[..starts[held]], &book.bytes()[starts[held]..]));
    }
}

#[test]
fn a_stored_hour_with_another_second_float_is_false() {
    let book = book();
    let old = with_fixed_rates(&book, with_a_twin(&book));
    let places = all_conditions(book.zone(), &old);
    for (place, conditions) in places.iter().enumerate() {
        let changed = |at: usize, byte: u8| {
            let mut bytes = old.clone();
            bytes[conditions.start + at] = byte;
            Book::take_up(&bytes)
        };
        for at in SECOND {
            let refusal = changed(at, 0x80).unwrap_err();
            assert_eq!((refusal.number(), refusal.index()), (18, place as u32));
            let fault = "a fixed rate has a second rate that is not all zero bits";
            let sentence = format!("entry {place}: its conditions are refused: {fault}");
            assert_eq!(refusal.sentence(), sentence);
        }
        let refusal = changed(FIRST.start, 0xFF).unwrap_err();
        assert!(refusal.sentence().contains("its conditions are refused: ach_cooling is "));
        let refusal = changed(CODE, 2).unwrap_err();
        let fault = "the rate code is 2, not 0 (fixed) or 1 (target and open)";
        assert!(refusal.sentence().ends_with(fault), "{refusal}");
        assert_eq!(refusal.index(), place as u32);
    }
}

#[test]
fn a_false_entry_with_a_fixed_rate_is_told_by_what_is_false() {
    let book = book();
    let old = with_fixed_rates(&book, with_a_twin(&book));
    let layout = book.zone().layout();
    for (place, entry) in layout.entries(&old).enumerate() {
        let results = entry.end - 33 - 8 * layout.nodes();
        for (at, name) in [
            (results + 7, "heating is"),
            (results + 15, "cooling is"),
            (results + 23, "air change rate is"),
            (results + 24, "trigger rate is"),
            (entry.end - 1, "temperatures are"),
        ] {
            let mut bytes = old.clone();
            bytes[at] ^= 1;
            let refusal = Book::take_up(&bytes).unwrap_err();
            let sentence = format!("entry {place}: its stored {name} not what the hour gives");
            assert_eq!((refusal.number(), refusal.sentence()), (18, &sentence[..]));
        }
        let mut bytes = old.clone();
        bytes[entry.start + 5 + 56..entry.start + 5 + 64]
            .copy_from_slice(&(-50.0_f64).to_be_bytes());
        let refusal = Book::take_up(&bytes).unwrap_err();
        assert!(refusal.sentence().contains("the cooling setpoint -50 °C is below"), "{refusal}");
    }
}

#[test]
fn a_false_entry_is_judged_at_its_fixed_rate_alone() {
    // House P with little to hold its temperature: without ventilation the hour is too hot to be calculated.
    let mut head = Head { tb_heat_trans_coeff: 0.0, useful_area: 0.001, ..house_p() };
    let Kind::Transparent(pane) = &mut head.elements[0].kind else { unreachable!() };
    pane.k_pli = [0.0, 0.0];
    let hot = Conditions { gains_heat_cool_convective: 1e7, ..hour_p(20.0, NO_CONTROL) };
    let mut book = Book::begin(&head).unwrap();
    let at = |ach| Conditions { ach, ..hot.clone() };
    book.append(&at(AirChangesPerHour::one_rate(1000.0)), ENTRY_VERSION_2).unwrap();
    let falling =
        AirChangesPerHour::TargetAndWindowsOpen { ach_target: 1000.0, ach_windows_open: 0.0 };
    assert_eq!(book.clone().append(&at(falling), ENTRY_VERSION_2).unwrap_err().number(), 13);
    let mut old = with_fixed_rates(&book, [0]);
    let heating = old.len() - 8 * 3 - 33;
    old[heating + 7] ^= 1;
    let refusal = Book::take_up(&old).unwrap_err();
    assert_eq!(refusal.sentence(), "entry 0: its stored heating is not what the hour gives");
}
