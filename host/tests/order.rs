//! Where several things are wrong, the refusal that docs/SPECIFICATION.md tests first is given.
use hem_zone::samples::{element_hour_p, hour_p, house_p};
use hem_zone::*;

/// Two windows of House P, the second with one treatment.
fn house() -> Head {
    let mut head = house_p();
    let mut second = head.elements[0].clone();
    second.kind = Kind::Transparent(Pane { k_pli: [0.0, 3600.0], h_pli: 1.0, delta_r: vec![0.1] });
    head.elements.push(second);
    head
}

fn hour() -> Conditions {
    Conditions { elements: vec![element_hour_p(); 2], ..hour_p(20.0, 24.0) }
}

fn numbers<T>(answer: Result<T, Refusal>) -> (u32, u32) {
    answer.map_or_else(|refusal| (refusal.number(), refusal.index()), |_| (0, 0))
}

fn head_of(change: impl FnOnce(&mut Vec<u8>)) -> (u32, u32) {
    let mut bytes = house().to_bytes();
    change(&mut bytes);
    numbers(Zone::from_head(&bytes))
}

/// Where the elements of the head begin: 4 + 53, then 123 bytes on.
const FIRST: usize = 57;
const SECOND: usize = 57 + 123;

fn spoil(bytes: &mut [u8], at: usize) {
    bytes[at..at + 8].copy_from_slice(&f64::NAN.to_be_bytes());
}

#[test]
fn heads() {
    assert_eq!(head_of(|_| ()), (0, 0));
    // The length's range comes before the bytes that are missing, and these before the version.
    assert_eq!(head_of(|b| (b[2], b[4]) = (255, 9)), (2, 0));
    assert_eq!(head_of(|b| (b[3], b[4]) = (b[3] + 1, 9)), (1, 0));
    assert_eq!(head_of(|b| (b[4], b[5]) = (9, 9)), (3, 0));
    assert_eq!(head_of(|b| (b[5], b[FIRST]) = (9, 9)), (4, 0));
    // An element's form is judged before the next one's, and all forms before all values.
    assert_eq!(head_of(|b| (b[FIRST], b[SECOND]) = (9, 9)), (4, 1));
    assert_eq!(head_of(|b| (b[SECOND], b[FIRST + 1]) = (9, 5)), (4, 1));
    let spoiled_and = |change: fn(&mut Vec<u8>)| {
        head_of(|b| {
            spoil(b, FIRST + 2);
            change(b)
        })
    };
    assert_eq!(spoiled_and(|_| ()), (5, 1));
    assert_eq!(spoiled_and(|b| b[SECOND] = 9), (4, 2));
    assert_eq!(spoiled_and(|b| b[SECOND + 1] = 2), (2, 0));
    assert_eq!(spoiled_and(|b| b[SECOND + 1] = 0), (2, 0));
    assert_eq!(spoiled_and(|b| b[6] = 1), (2, 0));
    assert_eq!(spoiled_and(|b| b[6] = 3), (2, 0));
    // Values in the order of the bytes, the limit first.
    assert_eq!(spoiled_and(|b| (b[7], b[8]) = (0, 0)), (5, 0));
    assert_eq!(spoiled_and(|b| spoil(b, SECOND + 2)), (5, 1));
    assert_eq!(head_of(|b| *b.last_mut().unwrap() = 2), (5, 2));
    assert_eq!(head_of(|b| *b.last_mut().unwrap() = 1), (0, 0));
}

#[test]
fn hours() {
    let zone = Zone::new(&house()).unwrap();
    let good = State::new(&[20.0; 5]);
    let ask = |state: &State, change: fn(&mut Vec<u8>)| {
        let mut bytes = hour().to_bytes();
        change(&mut bytes);
        let demand = numbers(zone.space_heat_cool_demand(state, &bytes));
        assert_eq!(demand, numbers(zone.why(state, &bytes)));
        let limits = Limits { heating: 0.0, cooling: 0.0 };
        for rule in [ENTRY_VERSION_1.into(), ENTRY_VERSION_2.into(), Rule::from(limits)] {
            assert_eq!(demand, numbers(zone.hour_step(state, &bytes, rule)));
        }
        demand
    };
    assert_eq!(ask(&good, |_| ()), (0, 0));
    assert_eq!(ask(&State::new(&[20.0; 4]), |b| b.truncate(10)), (6, 0));
    assert_eq!(ask(&State::new(&[1.1e6; 5]), |b| b[96] = 9), (6, 0));
    assert_eq!(ask(&good, |b| (b[96], _) = (9, b.pop())), (7, 0));
    assert_eq!(ask(&good, |b| b.push(0)), (7, 0));
    // The form of every element comes before any value.
    assert_eq!(
        ask(&good, |b| {
            spoil(b, 0);
            *b.last_mut().unwrap() = 2
        }),
        (8, 0)
    );
    assert_eq!(
        ask(&good, |b| {
            spoil(b, 8);
            spoil(b, 113)
        }),
        (9, 0)
    );
    assert_eq!(
        ask(&good, |b| {
            spoil(b, 113 + 41);
            spoil(b, 113 + 32)
        }),
        (9, 1)
    );
    // Both setpoints below the heating setpoint.
    let below = |b: &mut Vec<u8>| {
        b[56..64].copy_from_slice(&10f64.to_be_bytes());
        b[64..72].copy_from_slice(&10f64.to_be_bytes());
    };
    assert_eq!(ask(&good, below), (10, 0));
    assert_eq!(
        ask(&good, |b| {
            b[56..64].copy_from_slice(&10f64.to_be_bytes());
            spoil(b, 113 + 41)
        }),
        (9, 2)
    );
}

#[test]
fn limits_stand_between_the_values_of_an_hour_and_its_setpoints() {
    let zone = Zone::new(&house()).unwrap();
    let good = State::new(&[20.0; 5]);
    let bad = Limits { heating: f64::NAN, cooling: -1.0 };
    let crossed = Conditions { temp_setpnt_cool: 10.0, temp_setpnt_cool_vent: 10.0, ..hour() };
    let ask = |state: &State, change: fn(&mut Vec<u8>)| {
        let mut bytes = crossed.to_bytes();
        change(&mut bytes);
        let both =
            [bad, Limits::of_heating(0.0)].map(|l| numbers(zone.hour_step(state, &bytes, l)));
        let mut book = Book::begin(&house()).unwrap();
        assert_eq!(numbers(book.append(&bytes, bad)).0, both[0].0.max(7));
        both
    };
    assert_eq!(ask(&State::new(&[20.0; 4]), |b| b.truncate(10)), [(6, 0); 2]);
    assert_eq!(ask(&good, |b| b.truncate(10)), [(7, 0); 2]);
    assert_eq!(ask(&good, |b| b[96] = 9), [(8, 0); 2]);
    assert_eq!(ask(&good, |b| spoil(b, 113 + 41)), [(9, 2); 2]);
    assert_eq!(ask(&good, |_| ()), [(19, 0), (10, 0)]);
    let vent = |b: &mut Vec<u8>| b[56..64].copy_from_slice(&30f64.to_be_bytes());
    assert_eq!(ask(&good, vent), [(19, 0), (11, 0)]);
    // A version that no hour has, or that a book cannot go back to, comes before all of them.
    let unknown = zone.hour_step(&State::new(&[]), &[], Rule::new(4, bad));
    assert_eq!(numbers(unknown), (18, 0));
    let mut book = Book::begin(&house()).unwrap();
    book.append(&hour(), Limits::of_heating(0.0)).unwrap();
    assert_eq!(numbers(book.append(&[], Rule::new(ENTRY_VERSION_2, bad))), (18, 1));
}

#[test]
fn an_update_tests_its_own_values_last_and_no_setpoints() {
    let zone = Zone::new(&house()).unwrap();
    let state = State::new(&[20.0; 5]);
    let crossed = Conditions { temp_setpnt_cool: 10.0, temp_setpnt_cool_vent: 10.0, ..hour() };
    let update =
        |bytes: &[u8], gains| numbers(zone.update_temperatures(&state, bytes, gains, 0.5, 0.5));
    assert_eq!(update(&crossed.to_bytes(), 100.0), (0, 0));
    assert_eq!(update(&crossed.to_bytes(), f64::NAN), (9, 0));
    let mut spoiled = crossed.to_bytes();
    spoil(&mut spoiled, 113 + 41);
    assert_eq!(update(&spoiled, f64::NAN), (9, 2));
}

#[test]
fn zeros_and_ends_of_ranges() {
    let zone = Zone::new(&house()).unwrap();
    let state = State::new(&[20.0; 5]);
    let ask = |hour: Conditions| numbers(zone.space_heat_cool_demand(&state, &hour.to_bytes()));
    // A negative zero lies in a range from 0; as the second rate of a fixed one it is not all zero bits.
    assert_eq!(ask(Conditions { ach: AirChangesPerHour::one_rate(-0.0), ..hour() }), (0, 0));
    let mut second = hour().to_bytes();
    second[105] = 0x80;
    assert_eq!(numbers(zone.space_heat_cool_demand(&state, &second)), (0, 0));
    second[96] = 0;
    assert_eq!(numbers(zone.why(&state, &second)), (8, 0));
    (second[97], second[105]) = (0x80, 0);
    assert_eq!(numbers(zone.why(&state, &second)), (0, 0));
    assert_eq!(ask(Conditions { delta_t_h: 0.001, ..hour() }), (0, 0));
    assert_eq!(ask(Conditions { delta_t_h: 8760.0, ..hour() }), (0, 0));
    assert_eq!(ask(Conditions { temp_setpnt_heat: -273.15, ..hour() }), (0, 0));
    assert_eq!(ask(Conditions { temp_setpnt_cool: NO_CONTROL, ..hour() }), (0, 0));
    assert_eq!(
        ask(Conditions { temp_setpnt_heat: 100.1, temp_setpnt_cool: 200.0, ..hour() }),
        (9, 0)
    );
    let mut head = house();
    head.elements[0].area = -0.0;
    assert_eq!(numbers(Zone::new(&head)), (5, 1));
    head.elements[0].area = f64::MIN_POSITIVE;
    head.elements[0].h_ce = -0.0;
    assert_eq!(numbers(Zone::new(&head)), (0, 0));
}
