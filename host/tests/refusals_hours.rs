//! Refusals of calculations, books and limits: number, index and the sentence that says what is wrong.
#[path = "common/refused.rs"]
mod refused;

use hem_zone::samples::{hour_p, house_p};
use hem_zone::*;
use refused::*;

/// House P with little to hold its temperature.
fn light() -> Head {
    let mut head = house_p();
    let Kind::Transparent(pane) = &mut head.elements[0].kind else { unreachable!() };
    pane.k_pli = [0.0, 0.0];
    head.tb_heat_trans_coeff = 0.0;
    head
}

#[test]
fn n12_no_solution() {
    let mut head = light();
    head.elements[0].h_ce = 0.0;
    head.useful_area = 1e-20;
    let sentence = "the heat balance has no solution: a divisor is zero or not finite";
    is(Zone::new(&head).unwrap().start_up(), 12, 0, sentence);
}

#[test]
fn n13_temperature_too_high() {
    let head = Head { useful_area: 0.001, ..light() };
    let zone = Zone::new(&head).unwrap();
    let hour = hour_p(20.0, 24.0).to_bytes();
    let sentence = "a node temperature would not be finite or would lie beyond ±1,000,000 °C";
    is(zone.update_temperatures(&State::new(&[20.0; 3]), &hour, 1e7, 1.0, 0.0), 13, 0, sentence);
}

#[test]
fn n14_load_without_effect() {
    let head = Head { useful_area: 1e-12, ..house_p() };
    let zone = Zone::new(&head).unwrap();
    let hour = hour_p(21.0, 24.0).to_bytes();
    let sentence = "heating or cooling would not change the temperature, so no demand can be found";
    is(demand_of(&zone, &State::new(&[20.0; 3]), &hour), 14, 0, sentence);
}

#[test]
fn n15_start_up_limit() {
    let head = Head { start_up_limit: 1, temp_ext_air_init: 0.0, ..house_p() };
    let sentence = "start-up did not settle within its limit of passes (1)";
    is(Zone::new(&head).unwrap().start_up(), 15, 0, sentence);
    is(Book::begin(&head.to_bytes()), 15, 0, sentence);
}

// 16 cannot arise here, since a book's buffer grows: tests/c_interface.rs has it.

#[test]
fn n17_full_book() {
    let hour = hour_p(20.0, 24.0).to_bytes();
    let mut book = Book::begin(&house_p().to_bytes()).unwrap();
    for _ in 0..MOST_ENTRIES {
        book.append(&hour, ENTRY_VERSION_2).unwrap();
    }
    let sentence = "a book holds at most 8,784 entries";
    let full = book.bytes().to_vec();
    is(book.append(&hour, ENTRY_VERSION_2).map(|_| ()), 17, 0, sentence);
    assert_eq!((book.hours(), book.bytes()), (8784, &full[..]));
    assert_eq!(Book::take_up(&full).unwrap().hours(), 8784);
    let one_more = [&full[..], &full[180..396]].concat();
    is(Book::take_up(&one_more), 17, 0, sentence);
}

#[test]
fn n18_false_entries() {
    let mut book = Book::begin(&house().to_bytes()).unwrap();
    for _ in 0..3 {
        book.append(&hour().to_bytes(), ENTRY_VERSION_2).unwrap();
    }
    let layout = book.zone().layout().clone();
    let entry = layout.entry_len(ENTRY_VERSION_2).unwrap();
    let third = layout.head_len() + 2 * entry;
    let results = third + 5 + layout.conditions_len();
    let changed = |at: usize| {
        let mut bytes = book.bytes().to_vec();
        bytes[at] ^= 0x81;
        Book::take_up(&bytes)
    };
    let length = entry - 4;
    let wrong = format!("entry 2: its length is {}, not {length}", length ^ 0x81);
    is(changed(third + 3), 18, 2, &wrong);
    is(changed(third + 4), 18, 2, "entry 2: its version is 131, not 1, 2 or 3");
    let refused = "entry 2: its conditions are refused: the rate code is 128, \
                   not 0 (fixed) or 1 (target and open)";
    is(changed(third + 5 + 96), 18, 2, refused);
    is(changed(results), 18, 2, "entry 2: its stored heating is not what the hour gives");
    is(changed(results + 8), 18, 2, "entry 2: its stored cooling is not what the hour gives");
    is(
        changed(results + 16),
        18,
        2,
        "entry 2: its stored air change rate is not what the hour gives",
    );
    is(changed(results + 24), 18, 2, "entry 2: its stored trigger rate is not what the hour gives");
    is(
        changed(results + 33),
        18,
        2,
        "entry 2: its stored temperatures are not what the hour gives",
    );
    is(
        changed(layout.head_len() + 3).map(|b| b.hours()),
        18,
        0,
        &wrong.replace("entry 2", "entry 0"),
    );
}

#[test]
fn n19_limits() {
    let limited = |heating, cooling| {
        zone().hour_step(&twenty(), &hour().to_bytes(), Limits { heating, cooling })
    };
    let sentence = "heating_limit is -1, out of its range 0 to 10,000,000";
    is(limited(-1.0, -2.0), 19, 0, sentence);
    is(limited(0.0, f64::NAN), 19, 0, "cooling_limit is NaN, out of its range 0 to 10,000,000");
    let mut book = Book::begin(&house().to_bytes()).unwrap();
    let above = Limits::of_cooling(1e7_f64.next_up());
    let sentence = "cooling_limit is 10000000.000000002, out of its range 0 to 10,000,000";
    is(book.append(&hour().to_bytes(), above).map(|_| ()), 19, 0, sentence);
    // By its number alone version 3 has no limits.
    let sentence = "heating_limit is NaN, out of its range 0 to 10,000,000";
    is(book.append(&hour().to_bytes(), ENTRY_VERSION_3).map(|_| ()), 19, 0, sentence);
    // In an entry a limit out of range makes it false.
    book.append(&hour().to_bytes(), Limits::of_heating(1.0)).unwrap();
    let limits = book.zone().layout().head_len() + 5 + book.zone().layout().conditions_len();
    let mut bytes = book.bytes().to_vec();
    bytes[limits] ^= 0x80;
    let sentence = "entry 0: its heating_limit is -1, out of its range 0 to 10,000,000";
    is(Book::take_up(&bytes), 18, 0, sentence);
}

#[test]
fn n20_questions() {
    let mut book = Book::begin(&house().to_bytes()).unwrap();
    book.append(&hour().to_bytes(), ENTRY_VERSION_2).unwrap();
    let (book, empty) = (book.bytes(), &house().to_bytes()[..]);
    let range = "out of its range -1,000,000 to 1,000,000";
    for bytes in [book, empty] {
        is(first_above(bytes, f64::NAN), 20, 0, &format!("value is NaN, {range}"));
        is(first_above(bytes, 1e7), 20, 0, &format!("value is 10,000,000, {range}"));
        is(
            nearest_hour(bytes, -1e6_f64.next_up()),
            20,
            0,
            &format!("value is -1000000.0000000001, {range}"),
        );
        is(nearest_hour(bytes, f64::INFINITY), 20, 0, &format!("value is inf, {range}"));
        is(hours_within(bytes, 30.0, -f64::INFINITY), 20, 0, &format!("upper is -inf, {range}"));
        is(hours_within(bytes, 2e6, f64::NAN), 20, 0, &format!("lower is 2,000,000, {range}"));
        let sentence = "the band's lower end 26.5 °C is above its upper end -1,000 °C";
        is(hours_within(bytes, 26.5, -1000.0), 20, 0, sentence);
    }
    // What a take-up refuses comes first, in its own words.
    let mut damaged = book.to_vec();
    *damaged.last_mut().unwrap() ^= 1;
    let sentence = "entry 0: its stored temperatures are not what the hour gives";
    is(first_above(&damaged, f64::NAN), 18, 0, sentence);
    is(hours_within(&damaged, 2.0, 1.0), 18, 0, sentence);
    is(nearest_hour(&damaged, 1e7), 18, 0, sentence);
    let refusal = nearest_hour(&damaged, 20.0).unwrap_err();
    assert_eq!(refusal.to_string(), format!("{sentence} (refusal 18, entry 0)"));
    let short = "the head has 3 bytes and not even its 4-byte length";
    is(first_above(&book[..3], f64::NAN), 1, 0, short);
    let refusal = first_above(book, -2e6).unwrap_err();
    assert_eq!(refusal.to_string(), format!("value is -2,000,000, {range} (refusal 20)"));
    assert_eq!(refusal.reason(), Reason::QuestionValue);
}

#[test]
fn a_refusal_prints_its_number_and_place() {
    let refusal = head_with(|h| h.elements[2].area = -1.0).unwrap_err();
    assert_eq!(
        refusal.to_string(),
        "element 3: area is -1, out of its range above 0 to 100,000 (refusal 5, element 3)"
    );
}
