//! Many houses and hours: one with the fixed rate and its twin with the rate twice have the same answers, from `why`
//! and where a book is taken up.
#[path = "common/fixed_rate.rs"]
mod fixed_rate;
#[path = "common/generated.rs"]
mod generated;
#[path = "common/mixed.rs"]
mod mixed;
#[path = "common/softened.rs"]
mod softened;

use fixed_rate::*;
use generated::Chance;
use hem_zone::*;

/// How often something was met: hours by reason and load of an answer, hours that why refused, entries by version,
/// with a limit that held, and those that are false because their hour is refused.
#[derive(Debug, Default)]
struct Met {
    loads: [usize; 3],
    refused: [usize; 15],
    versions: [usize; 4],
    limit_held: usize,
    no_hours: usize,
}

/// Node temperatures around 20 °C.
fn state(zone: &Zone, chance: &mut Chance) -> State {
    let temps = (0..zone.layout().nodes()).map(|_| 20.0 + chance.number(-4.0, 8.0));
    State::new(&temps.collect::<Vec<_>>())
}

/// Why the two have their rate and load, or how they are refused. The demand refuses the fixed rate.
#[track_caller]
fn same_why(zone: &Zone, before: &State, twice: &[u8], met: &mut Met) {
    let fixed = fixed(twice);
    let why = zone.why(before, twice);
    assert_eq!(zone.why(before, &fixed), why);
    assert_eq!(zone.space_heat_cool_demand(before, &fixed).unwrap_err().number(), 8);
    match why {
        Ok(why) => {
            assert_eq!(why.reason, RateReason::NoChoice);
            met.loads[why.load as usize] += 1;
        }
        Err(refusal) => met.refused[refusal.number() as usize] += 1,
    }
}

/// An entry with no results of its own: what a take-up makes of it tells what its hour is.
fn without_results(zone: &Zone, rule: Rule, conditions: &[u8]) -> Vec<u8> {
    let length = zone.layout().entry_len(rule.version()).unwrap();
    let mut entry = ((length - 4) as u32).to_be_bytes().to_vec();
    entry.push(rule.version() as u8);
    entry.extend(conditions);
    if let Some(limits) = rule.limits() {
        entry.extend([limits.heating, limits.cooling].map(f64::to_be_bytes).concat());
    }
    entry.resize(length, 0);
    entry
}

/// Behind the hours of a book: the two are taken up alike, or found to be false alike.
fn same_take_up(book: &mut Book, twice: &[u8], rule: Rule, met: &mut Met) {
    let (zone, held) = (book.zone().clone(), book.bytes().to_vec());
    let taken = |conditions: &[u8]| {
        Book::take_up(&[&held[..], &without_results(&zone, rule, conditions)].concat())
    };
    let fixed = fixed(twice);
    let (false_twice, false_fixed) = (taken(twice).unwrap_err(), taken(&fixed).unwrap_err());
    assert_eq!(false_fixed, false_twice);
    assert_eq!((false_twice.number(), false_twice.index() as usize), (18, book.hours()));
    assert_eq!(book.append(&fixed, rule).unwrap_err().number(), 8);
    let Ok(entry) = book.append(twice, rule).map(<[u8]>::to_vec) else {
        met.no_hours += 1;
        assert!(false_fixed.sentence().contains("its conditions are refused"), "{false_fixed}");
        return;
    };
    let mut old = [&held[..], &entry].concat();
    let last = all_conditions(&zone, &old).pop().unwrap();
    put_fixed(&mut old[last]);
    let taken = Book::take_up(&old).unwrap();
    assert_eq!((taken.bytes(), taken.state()), (&old[..], book.state()));
    assert_eq!((taken.hours(), taken.last_version()), (book.hours(), rule.version()));
    met.versions[rule.version() as usize] += 1;
    met.limit_held += usize::from(taken.entry(book.hours() - 1).unwrap().held_limit().is_some());
    // And every result of the old entry is looked at.
    let results = zone.layout().entry_len(rule.version()).unwrap() - 33 - 8 * zone.layout().nodes();
    let at = old.len() - entry.len() + results + met.no_hours % 8;
    old[at] ^= 1;
    assert_eq!(Book::take_up(&old).unwrap_err().number(), 18);
}

#[test]
fn an_hour_and_its_twin_have_the_same_answers() {
    let (mut chance, mut met) = (Chance(700), Met::default());
    for _ in 0..2000 {
        let (mut head, hours) = mixed::house(&mut chance, 5);
        head.start_up_limit = head.start_up_limit.min(500);
        let zone = Zone::new(&head).unwrap();
        let hours: Vec<Vec<u8>> = hours.iter().map(Conditions::to_bytes).collect();
        for hour in hours.iter().filter(|hour| has_rate_twice(hour)) {
            same_why(&zone, &state(&zone, &mut chance), hour, &mut met);
        }
        let Ok(mut book) = Book::begin(&head) else { continue };
        for (place, hour) in hours.iter().enumerate() {
            let rule = mixed::rule(&mut chance, [1, 1, 2, 2, 3][place]);
            match has_rate_twice(hour) {
                true => same_take_up(&mut book, hour, rule, &mut met),
                // It has no twin: the book goes on with it.
                false => drop(book.append(hour, rule).map(|_| ())),
            }
        }
    }
    assert!(met.loads.iter().all(|count| *count > 50), "{met:?}");
    assert!(met.refused[13..].iter().all(|count| *count > 5), "{met:?}");
    assert_eq!(met.refused[..12], [0; 12], "{met:?}");
    assert!(met.versions[1..].iter().all(|count| *count > 50), "{met:?}");
    assert!(met.limit_held > 100 && met.no_hours > 5, "{met:?}");
}
