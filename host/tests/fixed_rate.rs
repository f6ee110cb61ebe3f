//! The fixed rate, rate code 0, which is retired: demand, update, hour step and append refuse it with 8, in the place
//! of the other 8s; `why` answers for it.
#[path = "common/fixed_rate.rs"]
mod fixed_rate;

use fixed_rate::*;
use hem_zone::samples::{element_hour_p, hour_p, house_p};
use hem_zone::*;

fn numbers<T>(answer: Result<T, Refusal>) -> (u32, u32) {
    answer.map_or_else(|refusal| (refusal.number(), refusal.index()), |_| (0, 0))
}

const NO_LIMITS: Limits = Limits { heating: 1e7, cooling: 1e7 };

fn rules() -> [Rule; 3] {
    [ENTRY_VERSION_1.into(), ENTRY_VERSION_2.into(), NO_LIMITS.into()]
}

// ---- the calls ----

/// Two windows of House P, the second with one treatment.
fn two_windows() -> Head {
    let mut head = house_p();
    let mut second = head.elements[0].clone();
    second.kind = Kind::Transparent(Pane { k_pli: [0.0, 3600.0], h_pli: 1.0, delta_r: vec![0.1] });
    head.elements.push(second);
    head
}

fn hour_of_two() -> Conditions {
    let ach = AirChangesPerHour::Cooling { ach_cooling: 0.5 };
    Conditions { elements: vec![element_hour_p(); 2], ach, ..hour_p(20.0, 24.0) }
}

/// What each call answers for these conditions: the demand, an update, an hour step and an append of each version.
fn answers(state: &State, conditions: &[u8]) -> Vec<(u32, u32)> {
    let zone = Zone::new(&two_windows()).unwrap();
    let mut all = vec![
        numbers(zone.space_heat_cool_demand(state, conditions)),
        numbers(zone.update_temperatures(state, conditions, 0.0, 1.0, 0.5)),
    ];
    for rule in rules() {
        all.push(numbers(zone.hour_step(state, conditions, rule)));
        let mut book = Book::begin(&zone).unwrap();
        let appended = numbers(book.append(conditions, rule));
        if appended.0 != 0 {
            assert_eq!((book.bytes(), book.hours()), (zone.head(), 0), "a refusal changes nothing");
        }
        // The state of an append is the book's own, so that it is never refused.
        let expected = all[all.len() - 1];
        all.push(if expected.0 == 6 { expected } else { appended });
    }
    all
}

fn spoil(bytes: &mut [u8], at: usize) {
    bytes[at..at + 8].copy_from_slice(&f64::NAN.to_be_bytes());
}

#[test]
fn every_call_refuses_a_fixed_rate_in_its_place() {
    let good = State::new(&[20.0; 5]);
    let ask = |state: &State, change: fn(&mut Vec<u8>)| {
        let mut bytes = hour_of_two().to_bytes();
        change(&mut bytes);
        answers(state, &bytes)
    };
    let all = |number, index| vec![(number, index); 8];
    assert_eq!(ask(&good, |b| put_twice(b)), all(0, 0));
    assert_eq!(ask(&good, |_| ()), all(8, 0));
    // 6 and 7 come before it.
    assert_eq!(ask(&State::new(&[20.0; 4]), |_| ()), all(6, 0));
    assert_eq!(ask(&State::new(&[f64::NAN; 5]), |b| b.truncate(10)), all(6, 0));
    assert_eq!(ask(&good, |b| b.push(0)), all(7, 0));
    // The other 8s have its number.
    assert_eq!(ask(&good, |b| b[SECOND.end - 1] = 1), all(8, 0));
    assert_eq!(ask(&good, |b| *b.last_mut().unwrap() = 2), all(8, 0));
    // 9 comes behind it, also that of the rate itself, of an element and of the limits; then 10 and 11.
    assert_eq!(ask(&good, |b| spoil(b, FIRST.start)), all(8, 0));
    assert_eq!(ask(&good, |b| spoil(b, 0)), all(8, 0));
    assert_eq!(ask(&good, |b| spoil(b, 113 + 41)), all(8, 0));
    assert_eq!(ask(&good, |b| b[56] = 0xC0), all(8, 0));
    let crossed = |b: &mut Vec<u8>| {
        put_twice(b);
        b[56] = 0xC0
    };
    let mut without_setpoints = all(10, 0);
    without_setpoints[1] = (0, 0);
    assert_eq!(ask(&good, crossed), without_setpoints, "an update has no setpoints");
}

/// The rate of conditions with a fixed one as target and as windows open.
fn put_twice(bytes: &mut [u8]) {
    bytes[CODE] = 1;
    bytes.copy_within(FIRST, SECOND.start);
}

#[test]
fn limits_and_own_values_come_behind_it_and_versions_before() {
    let zone = Zone::new(&two_windows()).unwrap();
    let (state, fixed) = (State::new(&[20.0; 5]), hour_of_two());
    let bad = Limits { heating: f64::NAN, cooling: -1.0 };
    for (hour, [step, update]) in
        [(fixed.clone(), [(8, 0), (8, 0)]), (fixed.with_rate_twice(), [(19, 0), (9, 0)])]
    {
        assert_eq!(numbers(zone.hour_step(&state, &hour, bad)), step);
        assert_eq!(numbers(zone.update_temperatures(&state, &hour, f64::NAN, 2.0, -1.0)), update);
        assert_eq!(numbers(Book::begin(&zone).unwrap().append(&hour, bad)), step);
        for version in [0, 4, 257, u64::MAX] {
            assert_eq!(numbers(zone.hour_step(&state, &hour, Rule::new(version, bad))), (18, 0));
            let mut book = Book::begin(&zone).unwrap();
            book.append(&fixed.with_rate_twice(), NO_LIMITS).unwrap();
            assert_eq!(numbers(book.append(&hour, Rule::new(version, bad))), (18, 1));
            // Nor may a book fall back to a version.
            assert_eq!(numbers(book.append(&hour, ENTRY_VERSION_2)), (18, 1));
        }
    }
}

#[test]
fn a_full_book_refuses_it_as_any_hour() {
    let mut book = Book::begin(&house_p()).unwrap();
    for _ in 0..MOST_ENTRIES {
        book.append(&hour_p(20.0, 24.0), ENTRY_VERSION_2).unwrap();
    }
    let fixed = fixed(&hour_p(20.0, 24.0).to_bytes());
    assert_eq!(numbers(book.append(&fixed, ENTRY_VERSION_2)), (17, 0));
    assert_eq!(numbers(book.append(&fixed, 257)), (17, 0));
    // Full of hours with the fixed rate, and converted, it is as full.
    let old = with_fixed_rates(&book, 0..MOST_ENTRIES);
    assert_eq!(Book::take_up(&old).unwrap().hours(), MOST_ENTRIES);
    assert!(convert(&old).unwrap() == book.bytes());
    let one_more = [&old[..], &old[180..396]].concat();
    assert_eq!(
        (numbers(Book::take_up(&one_more)), numbers(convert(&one_more))),
        ((17, 0), (17, 0))
    );
}

#[test]
fn it_is_refused_before_any_calculation() {
    // A house without loss or capacity has no solution: why says so, the demand sees the code first.
    let mut head = Head { useful_area: 1e-20, tb_heat_trans_coeff: 0.0, ..house_p() };
    let Kind::Transparent(pane) = &mut head.elements[0].kind else { unreachable!() };
    pane.k_pli = [0.0, 0.0];
    head.elements[0].h_ce = 0.0;
    let (zone, state) = (Zone::new(&head).unwrap(), State::new(&[20.0; 3]));
    let twice = hour_p(20.0, 24.0).to_bytes();
    assert_eq!(numbers(zone.why(&state, &fixed(&twice))), (12, 0));
    assert_eq!(numbers(zone.space_heat_cool_demand(&state, &twice)), (12, 0));
    assert_eq!(numbers(zone.space_heat_cool_demand(&state, &fixed(&twice))), (8, 0));
}

// ---- why ----

#[test]
fn why_answers_for_it_and_judges_the_second_float() {
    let zone = Zone::new(&two_windows()).unwrap();
    let state = State::new(&[20.0; 5]);
    let ask = |change: fn(&mut Vec<u8>)| {
        let mut bytes = hour_of_two().to_bytes();
        change(&mut bytes);
        zone.why(&state, &bytes)
    };
    assert_eq!(ask(|_| ()), Ok(Why { reason: RateReason::NoChoice, load: Load::Neither }));
    assert_eq!(numbers(ask(|b| b[SECOND.start] = 0x80)), (8, 0));
    assert_eq!(numbers(ask(|b| b[SECOND.end - 1] = 1)), (8, 0));
    assert_eq!(numbers(ask(|b| b[CODE] = 2)), (8, 0));
    assert_eq!(numbers(ask(|b| *b.last_mut().unwrap() = 2)), (8, 0));
    assert_eq!(numbers(ask(|b| spoil(b, FIRST.start))), (9, 0));
    assert_eq!(numbers(ask(|b| spoil(b, 113 + 41))), (9, 2));
    assert_eq!(numbers(ask(|b| b[56] = 0xC0)), (10, 0));
}

// ---- records ----

#[test]
fn conditions_say_whether_they_have_it() {
    let ach = AirChangesPerHour::Cooling { ach_cooling: -0.0 };
    let fixed = Conditions { ach, ..hour_p(21.0, 24.0) };
    let twice = fixed.with_rate_twice();
    assert_eq!((fixed.has_fixed_rate(), twice.has_fixed_rate()), (true, false));
    let mut expected = fixed.to_bytes();
    assert_eq!((expected[CODE], &expected[SECOND]), (0, &[0; 8][..]));
    put_twice(&mut expected);
    assert_eq!(twice.to_bytes(), expected);
    assert_eq!(expected[FIRST.start..SECOND.end], [(-0.0_f64).to_be_bytes(); 2].concat());
    assert_eq!(twice.with_rate_twice().to_bytes(), expected);
    let open = AirChangesPerHour::TargetAndWindowsOpen { ach_target: 0.5, ach_windows_open: 4.0 };
    assert_eq!(open.rate_twice(), open);
    let one = AirChangesPerHour::TargetAndWindowsOpen { ach_target: 0.5, ach_windows_open: 0.5 };
    assert_eq!(AirChangesPerHour::one_rate(0.5), one);
    // The conditions are read from bytes of either form.
    let zone = Zone::new(&house_p()).unwrap();
    assert_eq!(Conditions::from_bytes(&zone, &fixed.to_bytes()), Ok(fixed));
    assert_eq!(Conditions::from_bytes(&zone, &twice.to_bytes()), Ok(twice));
}
