//! Entry versions: by which fraction what is delivered is shared, and books that pass from 1 to 2.
use hem_zone::samples::{hour_p, house_p};
use hem_zone::{
    Basis, Book, Conditions, Demand, Head, HeatBalance, Limits, Refusal, Rule, State, Zone,
    ENTRY_VERSION_1, ENTRY_VERSION_2, NEWEST_ENTRY_VERSION,
};

/// A house with chilled ceilings: its heating gives 0.3 of its heat to the air, its cooling 0.7. The
/// window's inner side radiates, so that shares tell in either basis.
fn house(basis: Basis) -> Head {
    let mut head = Head { temp_setpnt_basis: basis, ..house_p() };
    head.elements[0].h_ri = 5.13;
    head
}

/// An hour of this house, with something that is on in any case.
fn hour(heat: f64, cool: f64, on: f64) -> Conditions {
    Conditions {
        frac_convective_heat: 0.3,
        frac_convective_cool: 0.7,
        gains_heat_cool_convective: on / 4.0,
        gains_heat_cool_radiative: on / 2.0,
        ..hour_p(heat, cool)
    }
}

fn twenty() -> State {
    State::new(&[20.0; 3])
}

/// The temperature that the setpoint is of, after the hour.
fn controlled(zone: &Zone, basis: Basis, conditions: &Conditions, version: u64) -> f64 {
    let (after, demand, _) = zone.hour_step(&twenty(), conditions, version).unwrap();
    assert_eq!(demand, zone.space_heat_cool_demand(&twenty(), conditions).unwrap());
    match basis {
        Basis::Air => after.temp_internal_air(),
        Basis::Operative => zone.temp_operative(&after).unwrap(),
    }
}

#[test]
fn a_cooled_hour_keeps_its_setpoint_from_version_2_on() {
    for basis in [Basis::Air, Basis::Operative] {
        let zone = Zone::new(&house(basis)).unwrap();
        let cooled = hour(15.0, 18.0, 0.0);
        let after = |version| controlled(&zone, basis, &cooled, version);
        assert!((after(ENTRY_VERSION_2) - 18.0).abs() < 1e-9, "{}", after(ENTRY_VERSION_2));
        assert!((after(ENTRY_VERSION_1) - 18.0).abs() > 0.05, "{}", after(ENTRY_VERSION_1));
    }
}

#[test]
fn a_heated_hour_and_an_idle_one_are_the_same_in_both_versions() {
    for basis in [Basis::Air, Basis::Operative] {
        let zone = Zone::new(&house(basis)).unwrap();
        for hour in [hour(22.0, 24.0, 0.0), hour(19.0, 24.0, 0.0), hour(19.0, 60.0, 80.0)] {
            let step = |version| zone.hour_step(&twenty(), &hour, version).unwrap();
            assert_eq!(step(ENTRY_VERSION_1).1.space_cool_demand, 0.0);
            assert_eq!(bits(step(ENTRY_VERSION_1)), bits(step(ENTRY_VERSION_2)));
        }
        let heated = controlled(&zone, basis, &hour(22.0, 24.0, 0.0), ENTRY_VERSION_1);
        assert!((heated - 22.0).abs() < 1e-9, "{heated}");
    }
}

/// All values of a step, to the bit.
fn bits(step: (State, Demand, HeatBalance)) -> (State, String) {
    let (state, demand, balance) = step;
    (state, format!("{demand:?} {balance:?}"))
}

/// The hour step as an update with the share that the rule of a version gives.
fn by_update(zone: &Zone, hour: &Conditions, version: u64) -> (State, String) {
    let demand = zone.space_heat_cool_demand(&twenty(), hour).unwrap();
    let kwh = demand.space_heat_demand + demand.space_cool_demand;
    let delivered = kwh * 1000.0 / hour.delta_t_h;
    let fraction = match delivered < 0.0 && version == ENTRY_VERSION_2 {
        true => hour.frac_convective_cool,
        false => hour.frac_convective_heat,
    };
    let on = hour.gains_heat_cool_convective + hour.gains_heat_cool_radiative;
    let gains = on + delivered;
    let share = (hour.gains_heat_cool_convective + delivered * fraction) / gains;
    let rate = demand.ach_cooling;
    let (after, balance) =
        zone.update_temperatures(&twenty(), hour, gains, share, rate).expect("an update");
    (after, format!("{demand:?} {balance:?}"))
}

#[test]
fn each_version_is_the_update_with_its_own_share() {
    for basis in [Basis::Air, Basis::Operative] {
        let zone = Zone::new(&house(basis)).unwrap();
        for hour in [hour(15.0, 18.0, 0.0), hour(15.0, 18.0, 40.0), hour(22.0, 24.0, 40.0)] {
            for version in [ENTRY_VERSION_1, ENTRY_VERSION_2] {
                let step = zone.hour_step(&twenty(), &hour, version).unwrap();
                assert_eq!(bits(step), by_update(&zone, &hour, version), "version {version}");
            }
        }
    }
}

// ---- books ----

/// A book whose cooled hours have these versions.
fn book(versions: &[u64]) -> Book {
    let mut book = Book::begin(&house(Basis::Operative)).unwrap();
    for (i, version) in versions.iter().enumerate() {
        book.append(&hour(15.0, 18.0 - 0.1 * i as f64, 0.0), *version).unwrap();
    }
    book
}

#[test]
fn a_book_passes_from_1_to_2_and_is_judged_hour_by_hour() {
    let book = book(&[1, 1, 2, 2]);
    assert_eq!(book.last_version(), 2);
    let versions: Vec<u64> = book.entries().map(|entry| entry.version()).collect();
    assert_eq!(versions, [1, 1, 2, 2]);
    let taken = Book::take_up(book.bytes()).unwrap();
    assert_eq!((taken.hours(), taken.last_version()), (4, 2));
    assert_eq!((taken.bytes(), taken.state()), (book.bytes(), book.state()));
    let mut state = book.zone().start_up().unwrap();
    for entry in book.entries() {
        let conditions = entry.conditions_bytes();
        let step = book.zone().hour_step(&state, conditions, entry.version()).unwrap();
        assert_eq!((entry.demand(), entry.state()), (step.1, step.0.clone()));
        state = step.0;
    }
    // Cooled hours tell the versions apart: the other version's byte makes a false entry.
    let size = book.zone().layout().entry_len(ENTRY_VERSION_2).unwrap();
    let head = book.zone().layout().head_len();
    for (place, other) in [(1, 2), (2, 1)] {
        let mut bytes = book.bytes().to_vec();
        bytes[head + place * size + 4] = other;
        let refusal = Book::take_up(&bytes).unwrap_err();
        assert_eq!((refusal.number(), refusal.index() as usize), (18, place));
    }
}

#[test]
fn a_refused_version_leaves_the_book() {
    let mut book = book(&[1, 2]);
    let before = book.clone();
    for version in [0, 1, 4, 257, u64::MAX] {
        let refusal = book.append(&hour(15.0, 18.0, 0.0), version).unwrap_err();
        assert_eq!((refusal.number(), refusal.index()), (18, 2));
        assert_eq!((book.bytes(), book.state()), (before.bytes(), before.state()));
        assert_eq!((book.hours(), book.last_version()), (2, 2));
    }
    // Nor does another refusal move the version on.
    let mut first = self::book(&[1]);
    assert_eq!(first.append(&hour(22.0, 21.0, 0.0), 2).unwrap_err().number(), 10);
    assert_eq!(first.last_version(), 1);
}

#[test]
fn a_book_that_is_cut_back_to_version_1_takes_it_again() {
    let book = book(&[1, 2, 2]);
    let layout = book.zone().layout();
    let (head, size) = (layout.head_len(), layout.entry_len(ENTRY_VERSION_2).unwrap());
    for (kept, last) in [(0, 1), (1, 1), (2, 2), (3, 2)] {
        let mut cut = Book::take_up(&book.bytes()[..head + kept * size]).unwrap();
        assert_eq!((cut.hours(), cut.last_version()), (kept, last));
        let again =
            cut.append(&hour(15.0, 18.0, 0.0), ENTRY_VERSION_1).map(|_| ()).map_err(|r| r.number());
        assert_eq!(again, if last == 1 { Ok(()) } else { Err(18) });
    }
}

#[test]
fn two_books_of_the_same_hours_and_other_versions_are_two_books() {
    let heated = |versions: [u64; 2]| {
        let mut book = Book::begin(&house(Basis::Air)).unwrap();
        for version in versions {
            book.append(&hour(22.0, 24.0, 0.0), version).unwrap();
        }
        book
    };
    let (one, mixed, two) = (heated([1, 1]), heated([1, 2]), heated([2, 2]));
    // Where nothing is cooled, only the version bytes differ.
    let differ =
        |a: &Book, b: &Book| a.bytes().iter().zip(b.bytes()).filter(|(a, b)| a != b).count();
    assert_eq!([differ(&one, &mixed), differ(&mixed, &two), differ(&one, &two)], [1, 1, 2]);
    assert_eq!(one.state(), two.state());
}

#[test]
fn the_newest_version_is_the_last_that_the_engine_takes() {
    let zone = Zone::new(&house(Basis::Air)).unwrap();
    let limits = Limits::of_heating(1000.0);
    let step =
        |version| zone.hour_step(&twenty(), &hour(15.0, 18.0, 0.0), Rule::new(version, limits));
    for version in ENTRY_VERSION_1..=NEWEST_ENTRY_VERSION {
        assert!(step(version).is_ok());
    }
    assert_eq!(step(NEWEST_ENTRY_VERSION + 1).unwrap_err().number(), 18);
}

#[test]
fn a_refused_version_is_told() {
    let printed = |refusal: Refusal| refusal.to_string();
    let (mut book, hour) = (book(&[1, 2, 2]), hour(15.0, 18.0, 0.0));
    let append =
        |book: &mut Book, version| book.append(&hour, version).map(|_| ()).map_err(printed);
    // Neither an append nor an hour step has an entry to name.
    let below = "the entry version is 1, below that of the entry before it, 2 (refusal 18)";
    assert_eq!(append(&mut book, 1), Err(below.into()));
    let unknown = String::from("the entry version is 257, not 1, 2 or 3 (refusal 18)");
    assert_eq!(append(&mut book, 257), Err(unknown.clone()));
    assert_eq!(append(&mut self::book(&[]), 257), Err(unknown.clone()));
    let step = book.zone().hour_step(&twenty(), &hour, 257).map_err(printed);
    assert_eq!(step, Err(unknown));
    let mut bytes = book.bytes().to_vec();
    let layout = book.zone().layout();
    let third = layout.entries(book.bytes()).nth(2).unwrap();
    for (version, fault) in
        [(1, "1, below that of the entry before it, 2"), (0, "0, not 1, 2 or 3")]
    {
        bytes[third.start + 4] = version;
        let sentence = format!("entry 2: its version is {fault} (refusal 18, entry 2)");
        assert_eq!(Book::take_up(&bytes).map(|_| ()).map_err(printed), Err(sentence));
    }
}
