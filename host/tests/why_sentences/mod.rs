//! Books whose hours are asked why, and what the sentences on them have to say.
#![allow(dead_code)] // Each file of tests uses a part of this.
#[path = "../common/fixed_rate.rs"]
mod fixed_rate;

use crate::common::Folder;
use crate::worked::Asked;
use fixed_rate::with_fixed_rates;
use hem_zone::samples::hour_p;
use hem_zone::{
    AirChangesPerHour, Book, Conditions, Demand, Entry, Head, Load, RateReason, Rule, State, Why,
    ENTRY_VERSION_2, NO_CONTROL,
};

/// Rates with windows closed and open.
pub fn rates(ach_target: f64, ach_windows_open: f64) -> AirChangesPerHour {
    AirChangesPerHour::TargetAndWindowsOpen { ach_target, ach_windows_open }
}

/// An hour of House P with windows that open above 22 °C, behind which the air has 15 °C. What warms the house is
/// the external temperature: by the bridges, 43.0625 W/K, while it takes 144 W to warm the house by a degree in an
/// hour, and some 33.645 W for each air change.
pub fn windows(temp_ext_air: f64) -> Conditions {
    Conditions {
        temp_ext_air,
        temp_setpnt_cool_vent: 22.0,
        avg_air_supply_temp: 15.0,
        ach: rates(0.5, 3.0),
        ..hour_p(18.0, 25.0)
    }
}

/// A folder with the book of a house and these hours. An hour that the engine refuses is left out.
pub fn with_book(name: &str, head: &Head, hours: &[Conditions]) -> (Folder, Book) {
    with_rule(name, head, hours, ENTRY_VERSION_2)
}

/// The same by a rule. An hour with a fixed rate is held as an older book has it.
pub fn with_rule(
    name: &str,
    head: &Head,
    hours: &[Conditions],
    rule: impl Into<Rule>,
) -> (Folder, Book) {
    let (folder, rule) = (Folder::new(name), rule.into());
    let (mut book, mut fixed) = (Book::begin(head).unwrap(), vec![]);
    for hour in hours {
        if book.append(&hour.with_rate_twice(), rule).is_ok() && hour.has_fixed_rate() {
            fixed.push(book.hours() - 1);
        }
    }
    let bytes = with_fixed_rates(&book, fixed);
    folder.write("p.book", &bytes);
    (folder, Book::take_up(&bytes).unwrap())
}

/// The sentence on an hour, from 1, behind its name.
#[track_caller]
pub fn said(folder: &Folder, number: usize) -> String {
    let said = folder.call(&["why", "p.book", &number.to_string()]).done();
    let sentence =
        said.strip_prefix(&format!("Hour {number} (")).and_then(|s| s.strip_suffix(".\n"));
    let sentence = sentence.unwrap_or_else(|| panic!("{said:?}"));
    sentence.split_once("): ").unwrap_or_else(|| panic!("{said:?}")).1.to_string()
}

/// The node temperatures before an hour, from 0.
pub fn before(book: &Book, place: usize) -> State {
    match place {
        0 => book.zone().start_up().unwrap(),
        _ => book.entry(place - 1).unwrap().state(),
    }
}

/// What the engine says of each hour.
pub fn reasons(book: &Book) -> Vec<Why> {
    let hours = book.entries().enumerate();
    let why = |(place, entry): (usize, Entry)| {
        book.zone().why(&before(book, place), entry.conditions_bytes()).unwrap()
    };
    hours.map(why).collect()
}

// ---- what a sentence says ----

/// The numbers of a text, in order.
pub fn numbers(text: &str) -> Vec<f64> {
    let words = text.split([' ', ';']).map(|word| word.trim_end_matches(','));
    words.filter_map(|word| word.parse().ok()).collect()
}

/// The words of a comparison, and whether it holds.
type Relation = (&'static str, fn(f64, f64) -> bool);

/// Every comparison of two temperatures that a sentence makes is true of the numbers that it tells.
#[track_caller]
pub fn must_be_true(sentence: &str) -> usize {
    let relations: [Relation; 4] = [
        (" above the ", |a, b| a > b),
        (" below the ", |a, b| a < b),
        (" not above the ", |a, b| a <= b),
        (" not below the ", |a, b| a >= b),
    ];
    let mut claims = 0;
    for (words, holds) in relations {
        for (place, _) in sentence.match_indices(words) {
            let (before, after) = sentence.split_at(place);
            if before.ends_with("°C,") || before.ends_with("°C is") {
                let (a, b) = (*numbers(before).last().unwrap(), numbers(after)[0]);
                assert!(holds(a, b), "{a}{words}{b}: {sentence}");
                claims += 1;
            }
        }
    }
    for (place, words) in sentence.match_indices(" within the setpoints of ") {
        let (before, after) =
            (numbers(&sentence[..place]), numbers(&sentence[place + words.len()..]));
        let t = *before.last().unwrap();
        assert!(after[0] <= t && t <= after[1], "{sentence}");
        claims += 1;
    }
    claims
}

/// A number that a sentence must tell, and how far it may be rounded: a given one not at all.
#[derive(Clone, Copy, Debug)]
pub struct Number {
    pub exact: f64,
    pub within: f64,
}

/// In full up to three decimals.
fn given(exact: f64) -> Number {
    let thousandths = (exact * 1000.0).round() / 1000.0;
    Number { exact, within: if thousandths == exact { 0.0 } else { 0.000_500_1 } }
}

fn degrees(exact: f64) -> Number {
    Number { exact, within: 0.050_001 }
}

/// A rate or an energy.
fn hundredths(exact: f64) -> Number {
    Number { exact, within: 0.005_001 }
}

/// The numbers that the sentence on an hour has to tell, in their order.
pub fn expected(asked: &Asked, why: Why, demand: &Demand) -> Vec<Number> {
    let mut numbers = on_the_rate(asked, why.reason, demand.ach_cooling);
    let judged = asked.free(demand.ach_cooling).ok().map(|free| free.control);
    numbers.extend(match why.load {
        Load::Heating => Some(hundredths(demand.space_heat_demand)),
        Load::Cooling => Some(hundredths(-demand.space_cool_demand)),
        Load::Neither => None,
    });
    numbers.extend(judged.map(degrees));
    let (heat, cool) = (asked.hour.temp_setpnt_heat, asked.hour.temp_setpnt_cool);
    numbers.extend(match (why.load, judged) {
        (Load::Heating, _) => vec![given(heat)],
        (Load::Cooling, _) => vec![given(cool)],
        (Load::Neither, None) => vec![],
        (Load::Neither, Some(t)) if t < heat => vec![given(heat)],
        (Load::Neither, Some(t)) if t > cool => vec![given(cool)],
        (Load::Neither, Some(_)) if cool == NO_CONTROL => vec![given(heat)],
        (Load::Neither, Some(_)) => vec![given(heat), given(cool)],
    });
    numbers
}

/// Those on its rate. Temperatures are not told where an update is refused.
fn on_the_rate(asked: &Asked, reason: RateReason, chosen: f64) -> Vec<Number> {
    let hour = &asked.hour;
    let (target, open) = match hour.ach {
        AirChangesPerHour::Cooling { ach_cooling } => (ach_cooling, ach_cooling),
        AirChangesPerHour::TargetAndWindowsOpen { ach_target, ach_windows_open } => {
            (ach_target, ach_windows_open)
        }
    };
    let (vent, cool) = (hour.temp_setpnt_cool_vent, hour.temp_setpnt_cool);
    let at = |rate: f64| asked.free(rate).ok();
    let control = |rate: f64| at(rate).map(|free| degrees(free.control));
    let cool_if_any = (cool != NO_CONTROL).then_some(given(cool));
    let target_and = |more: &[Option<Number>]| [&[Some(given(target))], more].concat();
    let numbers = match reason {
        RateReason::NoChoice => target_and(&[]),
        RateReason::NotAboveVentilationSetpoint if vent == NO_CONTROL => target_and(&[]),
        RateReason::NotAboveVentilationSetpoint => {
            target_and(&[control(target), Some(given(vent))])
        }
        RateReason::NotAboveSupply => {
            let air = at(target).map(|free| degrees(free.air));
            target_and(&[air, Some(given(hour.avg_air_supply_temp))])
        }
        RateReason::WindowsDoNotCool => {
            target_and(&[Some(given(open)), control(open), control(target)])
        }
        RateReason::StillAboveCoolingSetpoint => match at(target).zip(at(open)) {
            None => target_and(&[Some(given(vent)), Some(given(cool))]),
            Some((free, with_open)) => {
                match asked.ach_to_reach(vent, (target, free), (open, with_open)) {
                    found if found == open => {
                        target_and(&[Some(given(open)), control(open), Some(given(cool))])
                    }
                    found => {
                        let rate = Some(hundredths(found));
                        target_and(&[rate, Some(given(vent)), control(found), Some(given(cool))])
                    }
                }
            }
        },
        RateReason::WindowsEnough if at(target).is_none() => {
            vec![Some(hundredths(chosen)), Some(given(vent))]
        }
        RateReason::WindowsEnough if chosen == target => {
            target_and(&[Some(given(vent)), control(target), cool_if_any])
        }
        RateReason::WindowsEnough => vec![
            Some(hundredths(chosen)),
            control(target),
            Some(given(vent)),
            control(chosen),
            cool_if_any,
        ],
    };
    numbers.into_iter().flatten().collect()
}

/// The sentence tells these numbers and no others.
#[track_caller]
pub fn must_tell(sentence: &str, expected: &[Number]) {
    let told = numbers(sentence);
    assert_eq!(told.len(), expected.len(), "{sentence}: {expected:?}");
    for (told, Number { exact, within }) in told.iter().zip(expected) {
        assert!((told - exact).abs() <= *within, "{told} for {exact}: {sentence}");
    }
}
