//! The three questions about a book at the C interface, beside an answer from the bytes of its entries; what is
//! refused, in which order, and that nothing is written then.
#[path = "common/lent.rs"]
mod lent;

use hem_zone::ffi::{NONE, TEMPS};
use hem_zone::samples::house_p;
use lent::*;

/// What an entry of House P takes, by version.
const ENTRIES: [usize; 4] = [0, 216, 216, 232];
/// Its nodes, which are the last bytes of an entry.
const NODES: usize = 3;

/// Values that no question takes, and the greatest that it takes.
const BAD: [f64; 6] =
    [f64::NAN, f64::INFINITY, f64::NEG_INFINITY, 1e7, 1000000.0000000001, -1000000.0000000001];
const MOST: f64 = 1e6;

/// A book of House P whose hours have these versions, and heating setpoints that rise and fall.
fn book(versions: &[u64]) -> Vec<u8> {
    let mut lent = Lent::new(180 + 232 * versions.len());
    assert_eq!(begin(&p(), &mut lent), 0);
    for (i, version) in versions.iter().enumerate() {
        let cond = hour([20.0, 22.5, 19.0, 25.0, 17.0][i % 5], 30.0);
        assert_eq!(limited_append(&p(), &cond, *version, [900.0, 0.0], &mut lent), 0);
    }
    lent.buf.truncate(lent.used as usize);
    lent.buf
}

const THREE: [u64; 12] = [1, 1, 1, 1, 2, 2, 2, 2, 3, 3, 3, 3];

/// The operative temperature of node temperatures.
fn operative_of(temps: &[f64]) -> f64 {
    let mut lent = Lent::new(0);
    lent.temps = [0.0; TEMPS];
    lent.temps[..NODES].copy_from_slice(temps);
    lent.nodes = NODES as u64;
    assert_eq!(operative(&p(), &mut lent), 0);
    lent.out[0]
}

/// The operative temperatures of a book of House P, start-up's first: from the last floats of each whole entry.
fn temperatures(book: &[u8]) -> Vec<f64> {
    let mut all = vec![operative_of(&[20.0; NODES])];
    let mut rest = &book[180..];
    while rest.len() > 4 && rest.len() >= ENTRIES[rest[4] as usize] {
        let (entry, behind) = rest.split_at(ENTRIES[rest[4] as usize]);
        let floats = entry[entry.len() - 8 * NODES..].chunks(8);
        let temps: Vec<f64> =
            floats.map(|bytes| f64::from_be_bytes(bytes.try_into().unwrap())).collect();
        all.push(operative_of(&temps));
        rest = behind;
    }
    all
}

/// What the questions must answer, with start-up's temperature first.
fn expected(all: &[f64], value: f64, upper: f64) -> [u64; 3] {
    let hours = &all[1..];
    let above = all.windows(2).position(|pair| pair[0] <= value && pair[1] > value);
    let within = hours.iter().filter(|t| (value..=upper).contains(*t)).count();
    let mut nearest: Option<usize> = None;
    for (i, t) in hours.iter().enumerate() {
        if nearest.is_none_or(|best| (t - value).abs() < (hours[best] - value).abs()) {
            nearest = Some(i);
        }
    }
    let hour = |place: Option<usize>| place.map_or(NONE, |hour| hour as u64);
    [hour(above), within as u64, hour(nearest)]
}

/// The three answers, each accepted.
#[track_caller]
fn asked(bytes: &[u8], value: f64, upper: f64) -> [u64; 3] {
    let answers =
        [first_above(bytes, value), hours_within(bytes, value, upper), nearest_hour(bytes, value)];
    answers.map(|(answer, written)| {
        assert_eq!(answer, 0, "{value} {upper}");
        written
    })
}

/// The three calls with these values, each refused with this answer and with nothing written.
#[track_caller]
fn all_refused(bytes: &[u8], value: f64, answer: u32) {
    for given in [
        first_above(bytes, value),
        hours_within(bytes, value, 30.0),
        hours_within(bytes, -30.0, value),
        nearest_hour(bytes, value),
    ] {
        assert_eq!(given, (answer, MARK_COUNT), "{value}");
    }
}

#[test]
fn every_value_is_answered_from_the_entries() {
    let book = book(&THREE);
    let all = temperatures(&book);
    assert_eq!(all.len(), THREE.len() + 1);
    let mut values: Vec<f64> = all.iter().flat_map(|t| [*t, t.next_up(), t.next_down()]).collect();
    values.extend([-MOST, -0.0, 0.0, 5e-324, 20.0, 21.0, 23.75, MOST]);
    values.sort_by(f64::total_cmp);
    let mut seen = [0; 3];
    for value in &values {
        for upper in values.iter().filter(|upper| *value <= **upper) {
            let told = asked(&book, *value, *upper);
            assert_eq!(told, expected(&all, *value, *upper), "{value} {upper}");
            seen[0] += usize::from(told[0] == NONE);
            seen[1] += usize::from(told[0] > 0 && told[0] != NONE);
            seen[2] += usize::from(told[1] > 1);
        }
    }
    assert!(seen.iter().all(|count| *count > 20), "{seen:?}");
}

#[test]
fn questions_are_about_the_operative_temperature_in_either_basis() {
    // Heated to 22.5 °C, the air is warmer than the window.
    let air = book(&[2, 2]);
    let all = temperatures(&air);
    assert!(all[2] < 22.5 && all[2] > 20.0, "{all:?}");
    assert_eq!(first_above(&air, all[2].next_down()), (0, 1));
    assert_eq!(first_above(&air, all[2]), (0, NONE));
    let mut head = house_p();
    head.temp_setpnt_basis = hem_zone::Basis::Operative;
    let mut lent = Lent::new(180 + 216);
    let head = head.to_bytes();
    assert_eq!(begin(&head, &mut lent), 0);
    assert_eq!(append(&head, &hour(22.5, 30.0), 2, &mut lent), 0);
    let warm = operative_of(&lent.temps[..NODES]);
    assert!((warm - 22.5).abs() < 1e-9 && lent.temps[2] > 22.6, "{warm} {}", lent.temps[2]);
    assert_eq!(hours_within(&lent.buf, warm, warm), (0, 1));
    assert_eq!(first_above(&lent.buf, warm), (0, NONE));
    assert_eq!(first_above(&lent.buf, warm.next_down()), (0, 0));
}

#[test]
fn the_hour_goes_from_at_the_value_to_above_it() {
    // Start-up has 20 °C, and so has the first hour.
    let book = book(&[2; 5]);
    let all = temperatures(&book);
    assert_eq!(all[..2], [20.0, 20.0]);
    assert_eq!(first_above(&book, 20.0), (0, 1));
    assert_eq!(first_above(&book, 20.0_f64.next_down()), (0, expected(&all, 19.99, 20.0)[0]));
    // Above from start-up on and never at or below again.
    let coldest = all.iter().copied().fold(f64::INFINITY, f64::min);
    assert_eq!(first_above(&book, coldest.next_down()), (0, NONE));
    // Start-up is below and no hour is: the first hour goes above.
    let mut lent = Lent::new(180 + 216);
    assert_eq!(begin(&p(), &mut lent), 0);
    assert_eq!(append(&p(), &hour(22.0, 30.0), 2, &mut lent), 0);
    assert_eq!(first_above(&lent.buf, 20.0), (0, 0));
    // Start-up is no hour of a band, and not the nearest.
    assert_eq!(hours_within(&lent.buf, 20.0, 20.0), (0, 0));
    assert_eq!(nearest_hour(&lent.buf, 20.0), (0, 0));
}

#[test]
fn of_two_that_are_equally_near_the_earlier_is_answered() {
    let book = book(&[2; 10]);
    let all = temperatures(&book);
    let hours = &all[1..];
    let mut orders = [0, 0];
    for (i, early) in hours.iter().enumerate() {
        for late in &hours[i + 1..] {
            let middle = (early + late) / 2.0;
            let distance = (early - middle).abs();
            let nearer = hours.iter().any(|t| (t - middle).abs() < distance);
            if early == late || nearer || distance != (late - middle).abs() {
                continue;
            }
            orders[usize::from(early < late)] += 1;
            let first = hours.iter().position(|t| (t - middle).abs() == distance).unwrap();
            assert_eq!(nearest_hour(&book, middle), (0, first as u64));
        }
    }
    assert!(orders[0] > 0 && orders[1] > 0, "{orders:?}");
}

#[test]
fn what_a_cut_leaves_is_no_part_of_the_book() {
    let whole = book(&[1, 2, 2, 3, 3]);
    for cut in 180..=whole.len() {
        let bytes = &whole[..cut];
        let all = temperatures(bytes);
        for value in [16.0, 20.0, 21.0, 40.0] {
            assert_eq!(
                asked(bytes, value, 22.0_f64.max(value)),
                expected(&all, value, 22.0_f64.max(value))
            );
        }
    }
}

#[test]
fn a_book_of_no_hours() {
    for bytes in [&p()[..], &[&p()[..], &[0; 4]].concat()] {
        assert_eq!(asked(bytes, 19.0, 21.0), [NONE, 0, NONE]);
        for value in BAD {
            all_refused(bytes, value, 20);
        }
    }
}

#[test]
fn values_and_bands_that_are_refused() {
    let book = book(&THREE);
    for value in BAD {
        all_refused(&book, value, 20);
    }
    for (lower, upper) in
        [(20.0_f64.next_up(), 20.0), (MOST, -MOST), (5e-324, 0.0), (0.0, -5e-324), (5e-324, -0.0)]
    {
        assert_eq!(hours_within(&book, lower, upper), (20, MARK_COUNT), "{lower} {upper}");
    }
    // A zero of either sign is one number, and the ends of the range are good.
    let hours = THREE.len() as u64;
    for (lower, upper, written) in
        [(0.0, -0.0, 0), (-0.0, 0.0, 0), (-MOST, MOST, hours), (-MOST, -MOST, 0), (MOST, MOST, 0)]
    {
        assert_eq!(hours_within(&book, lower, upper), (0, written), "{lower} {upper}");
    }
}

#[test]
fn the_refusals_of_a_take_up_come_first() {
    let good = book(&THREE);
    let mut unsettled = house_p();
    unsettled.temp_setpnt_vent_init = 19.0;
    let mut area = house_p();
    area.elements[0].area = -1.0;
    let changed = |at: usize, with: u8| {
        let mut bytes = good.clone();
        bytes[at] ^= with;
        bytes
    };
    let third = 180 + 2 * 216;
    let full = book(&[2; 8784]);
    for (bytes, answer) in [
        (vec![], 1),
        (good[..179].to_vec(), 1),
        (changed(3, 1), 2),
        (changed(4, 2), 3),
        (changed(5, 2), 4),
        (area.to_bytes(), 5 + 256),
        (unsettled.to_bytes(), 11),
        ([&full[..], &full[180..396]].concat(), 17),
        (changed(third + 180, 1), 18 + 2 * 256),
        (changed(third + 4, 8), 18 + 2 * 256),
        ([&good[..], &[0, 0, 0, 0, 9]].concat(), 18 + 12 * 256),
    ] {
        let mut lent = Lent::new(0);
        assert_eq!(take_up(&bytes, &mut lent), answer);
        for value in [20.0, f64::NAN, 1e7] {
            all_refused(&bytes, value, answer);
        }
        assert_eq!(hours_within(&bytes, 2.0, 1.0), (answer, MARK_COUNT));
    }
    assert_eq!(hours_within(&full, -MOST, MOST), (0, 8784));
}
