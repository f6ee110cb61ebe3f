//! The questions about a book over the sample year, beside answers hour by hour from the temperatures that
//! stand in it.
mod common;

use common::warm::Temperatures;
use common::Folder;
use hem_zone::{
    first_above, hours_within, nearest_hour, Book, Limits, Rule, ENTRY_VERSION_1, ENTRY_VERSION_2,
};

/// The first hours of the sample year: a quarter of version 1, a quarter of version 2, then without cooling.
fn sample(name: &str, hours: usize) -> (Book, Temperatures) {
    let folder = Folder::new(name);
    folder.call(&["sample", "."]).done();
    let mut book = Book::begin(&folder.read("terrace.head")).unwrap();
    let without_cooling = Rule::from(Limits::of_cooling(0.0));
    let rules = [ENTRY_VERSION_1.into(), ENTRY_VERSION_2.into(), without_cooling, without_cooling];
    let year = folder.read("terrace.year");
    let size = book.zone().layout().conditions_len();
    for (place, hour) in year.chunks(size).take(hours).enumerate() {
        book.append(hour, rules[4 * place / hours]).unwrap();
    }
    assert_eq!(book.hours(), hours);
    let temperatures = Temperatures::of(&book);
    (book, temperatures)
}

/// All three questions, with a band from the value to another; what the first and the last answer.
#[track_caller]
fn must_agree(
    book: &Book,
    all: &Temperatures,
    value: f64,
    upper: f64,
) -> (Option<usize>, Option<usize>) {
    let bytes = book.bytes();
    let (above, nearest) =
        (first_above(bytes, value).unwrap(), nearest_hour(bytes, value).unwrap());
    assert_eq!(above, all.first_above(value), "above {value}");
    assert_eq!(
        hours_within(bytes, value, upper).unwrap(),
        all.within(value, upper),
        "{value} to {upper}"
    );
    assert_eq!(nearest, all.nearest(value), "nearest to {value}");
    (above, nearest)
}

#[test]
fn a_year_is_asked_about_many_values() {
    let (book, all) = sample("year_asked", 8760);
    let mut values: Vec<f64> = (0..=32).map(|half| 14.0 + f64::from(half) / 2.0).collect();
    values.extend([-1e6, -273.15, -5.0, -0.0, 5e-324, 1e6, all.start_up]);
    for hour in [0, 1, 583, 2190, 4380, 4890, 8759] {
        let exact = all.hours[hour];
        values.extend([exact, exact.next_up(), exact.next_down()]);
    }
    values.sort_by(f64::total_cmp);
    let mut hours = vec![];
    for pair in values.windows(2) {
        hours.push(must_agree(&book, &all, pair[0], pair[1]));
    }
    must_agree(&book, &all, 26.0, 28.0);
    assert_eq!(hours_within(book.bytes(), -1e6, 1e6), Ok(8760));
    // The answers are not all alike.
    let above = |place: fn(usize) -> bool| hours.iter().any(|(hour, _)| hour.is_some_and(place));
    assert!(above(|hour| hour < 24) && above(|hour| hour > 4000));
    assert!(hours.iter().any(|(hour, _)| hour.is_none()));
    hours.sort_by_key(|(_, nearest)| *nearest);
    hours.dedup_by_key(|(_, nearest)| *nearest);
    assert!(hours.len() > 30, "{}", hours.len());
}

#[test]
fn each_hour_is_asked_about_its_own_temperature() {
    let (book, all) = sample("hours_asked", 300);
    for (hour, exact) in all.hours.iter().enumerate() {
        let (above, nearest) = must_agree(&book, &all, *exact, *exact);
        let first = all.hours.iter().position(|t| t == exact);
        assert_eq!(nearest, first, "hour {hour} or an earlier one like it");
        assert!(above != Some(hour), "an hour at the value is not above it");
        must_agree(&book, &all, exact.next_down(), exact.next_up());
    }
}

#[test]
fn of_two_hours_that_are_equally_near_the_earlier_is_answered() {
    let (book, all) = sample("ties_asked", 300);
    let mut sorted: Vec<usize> = (0..all.hours.len()).collect();
    sorted.sort_by(|a, b| all.hours[*a].total_cmp(&all.hours[*b]));
    let mut orders = [0, 0];
    for pair in sorted.windows(2) {
        let [low, high] = [all.hours[pair[0]], all.hours[pair[1]]];
        let middle = (low + high) / 2.0;
        if low == high || middle - low != high - middle {
            continue;
        }
        let (_, nearest) = must_agree(&book, &all, middle, high);
        let first = |value: f64| all.hours.iter().position(|t| *t == value).unwrap();
        assert_eq!(nearest, Some(first(low).min(first(high))), "{middle}");
        orders[usize::from(first(low) < first(high))] += 1;
    }
    assert!(orders[0] > 20 && orders[1] > 20, "{orders:?}");
    // From far away distances are equal, once they are rounded, though the temperatures are not.
    let (_, nearest) = must_agree(&book, &all, -1e6, 0.0);
    let coldest = all.hours.iter().copied().fold(f64::INFINITY, f64::min);
    assert!(
        all.hours[nearest.unwrap()] > coldest,
        "the earlier of those that are equal when rounded"
    );
}

#[test]
fn a_rest_is_no_part_of_the_book() {
    let (book, all) = sample("rest_asked", 30);
    let cut = |hours: usize| {
        let last = book.entry(hours).unwrap().bytes();
        let start = last.as_ptr() as usize - book.bytes().as_ptr() as usize;
        (start, start + last.len())
    };
    for hours in [0, 1, 7, 8, 15, 16, 29] {
        let (start, end) = cut(hours);
        let shorter = Temperatures { hours: all.hours[..hours].to_vec(), ..all };
        for bytes in [start, start + 1, start + 5, end - 1].map(|end| &book.bytes()[..end]) {
            for value in [16.0, all.hours[0], all.hours[5], 19.0, 1e6] {
                assert_eq!(first_above(bytes, value), Ok(shorter.first_above(value)));
                assert_eq!(hours_within(bytes, 0.0, value), Ok(shorter.within(0.0, value)));
                assert_eq!(nearest_hour(bytes, value), Ok(shorter.nearest(value)));
            }
        }
    }
}
