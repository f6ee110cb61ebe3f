//! hem-year why: the sentences on many hours, held against numbers that are worked out apart.
mod common;
#[path = "common/generated.rs"]
mod generated;
mod why_sentences;
#[path = "common/why.rs"]
mod worked;

use common::Folder;
use generated::Chance;
use hem_zone::samples::{element_hour_p, hour_p, house_p};
use hem_zone::{
    AirChangesPerHour, Basis, Book, BuildingElement, Conditions, Head, Kind, Layers, Load,
    RateReason, Why, NO_CONTROL,
};
use why_sentences::{before, expected, must_be_true, must_tell, rates, reasons, said, with_book};
use worked::Asked;

/// The window of House P, a wall and a floor, which have other temperatures than the air.
fn house(temp_setpnt_basis: Basis) -> Head {
    let window = house_p().elements[0].clone();
    let layers = |k: f64| Layers { k_pli: [k; 5], h_pli: [5.0; 4] };
    let wall = BuildingElement { h_ce: 20.0, h_re: 4.14, h_ri: 5.13, area: 30.0, ..window.clone() };
    Head {
        temp_setpnt_basis,
        start_up_limit: 10_000,
        elements: vec![
            BuildingElement { kind: Kind::Opaque(layers(15_000.0)), ..wall.clone() },
            BuildingElement { h_ri: 5.13, area: 6.0, ..window },
            BuildingElement { kind: Kind::Ground(layers(30_000.0)), pitch: 180.0, ..wall },
        ],
        ..house_p()
    }
}

/// An hour by chance, such that every reason and every load occurs.
fn hour(chance: &mut Chance) -> Conditions {
    let heat = chance.one_of(&[16.0, 18.0, 19.5, 20.0]);
    let fixed = AirChangesPerHour::Cooling { ach_cooling: chance.number(0.0, 2.0) };
    let ach = match chance.below(16) {
        0 => fixed,
        1 => rates(1.0, 1.0),
        2 | 3 => rates(chance.number(1.0, 4.0), chance.number(0.0, 1.0)),
        _ => rates(chance.number(0.0, 1.0), chance.one_of(&[1.5, 3.0, 6.0, 20.0])),
    };
    // Some lie out of the range of an update's fraction.
    let on = chance.one_of(&[
        [0.0, 0.0],
        [0.0, 0.0],
        [0.0, 0.0],
        [30.0, 60.0],
        [50.0, -50.0],
        [-20.0, 60.0],
    ]);
    let cool = chance.one_of(&[0.0, 1.0, 2.5, 4.0, 6.0, NO_CONTROL]);
    let vent = chance.one_of(&[0.0, 0.5, 1.0, 2.0, 3.0, 5.0, NO_CONTROL]);
    Conditions {
        delta_t_h: chance.one_of(&[1.0, 1.0, 1.0, 0.25, 2.0]),
        temp_ext_air: chance.number(5.0, 30.0),
        gains_internal: chance.number(-1000.0, 4000.0),
        // 1.4e32 swallows what is added.
        temp_setpnt_cool: heat + cool,
        temp_setpnt_cool_vent: heat + vent,
        avg_air_supply_temp: chance.number(8.0, 26.0),
        frac_convective_heat: 0.4,
        frac_convective_cool: 0.9,
        gains_heat_cool_convective: on[0],
        gains_heat_cool_radiative: on[1],
        ach,
        elements: vec![element_hour_p(); 3],
        ..hour_p(heat, heat)
    }
}

/// Every sentence on a book is true and tells the numbers that decided; gives what was asked.
#[track_caller]
fn must_hold(folder: &Folder, head: &Head, book: &Book) -> Vec<Why> {
    let all = reasons(book);
    for (place, why) in all.iter().enumerate() {
        let (entry, sentence) = (book.entry(place).unwrap(), said(folder, place + 1));
        let before = before(book, place);
        // A fixed rate is retired; with the rate twice every call takes the hour.
        let hour = entry.conditions().with_rate_twice();
        let asked = Asked { head, zone: book.zone(), before: &before, hour };
        if let Ok(worked) = asked.worked() {
            assert_eq!(worked.reason, why.reason, "{sentence}");
        }
        must_tell(&sentence, &expected(&asked, *why, &entry.demand()));
        must_be_true(&sentence);
        must_name_the_reason(&sentence, why.reason);
        must_name_the_load(&sentence, why.load);
        must_name_the_temperature(&sentence, head.temp_setpnt_basis);
    }
    all
}

#[track_caller]
fn must_name_the_reason(sentence: &str, reason: RateReason) {
    let rate = sentence.split("; the hour asks for ").next().unwrap();
    let marks = [
        (RateReason::NoChoice, &["the air change rate is "][..]),
        (
            RateReason::NotAboveVentilationSetpoint,
            &[
                "not above the ventilation",
                "not be above the ventilation",
                "no ventilation setpoint",
            ],
        ),
        (RateReason::NotAboveSupply, &["of the supplied air"]),
        (RateReason::WindowsDoNotCool, &["with them open, at "]),
        (RateReason::StillAboveCoolingSetpoint, &["would still be "]),
        (
            RateReason::WindowsEnough,
            &[
                "the windows are opened to",
                "the windows are fully open, at",
                "this is the rate for",
            ],
        ),
    ];
    for (named, words) in marks {
        let found = words.iter().any(|words| rate.contains(words));
        assert_eq!(found, named == reason, "{named:?}: {sentence}");
    }
    assert_eq!(
        rate.starts_with("the windows stay closed, at "),
        !matches!(reason, RateReason::NoChoice | RateReason::WindowsEnough)
            || rate.contains("this is the rate for"),
        "{sentence}"
    );
}

#[track_caller]
fn must_name_the_load(sentence: &str, load: Load) {
    let asks = sentence.split("; the hour asks for ").nth(1).unwrap();
    let marks = [
        (Load::Heating, " kWh of heating"),
        (Load::Cooling, " kWh of cooling"),
        (Load::Neither, "neither heating nor cooling"),
    ];
    for (named, words) in marks {
        assert_eq!(asks.contains(words), named == load, "{sentence}");
    }
}

/// Setpoints are of one temperature, and so is all that is said, but for the air that is held against the
/// supplied air.
#[track_caller]
fn must_name_the_temperature(sentence: &str, basis: Basis) {
    let (named, other) = match basis {
        Basis::Air => ("the air temperature", "operative"),
        Basis::Operative => ("the operative temperature", "the air temperature"),
    };
    let parts = sentence.split("; ").filter(|part| !part.contains("supplied air"));
    let rest: String = parts.collect();
    assert!(!rest.contains(other), "{sentence}");
    assert!(rest.contains(named) || !rest.contains("without "), "{sentence}");
}

/// Hours by chance with a house of this basis. Every reason occurs with every load that goes with it.
fn by_chance(name: &str, basis: Basis, seed: u64) {
    let (head, mut chance) = (house(basis), Chance(seed));
    let hours: Vec<Conditions> = (0..400).map(|_| hour(&mut chance)).collect();
    let (folder, book) = with_book(name, &head, &hours);
    let all = must_hold(&folder, &head, &book);
    for reason in RateReason::ALL {
        for load in Load::ALL {
            let found = all.iter().filter(|why| **why == Why { reason, load }).count();
            // Windows are looked at above the ventilation setpoint, which is not below the heating setpoint; and
            // where they are enough there is nothing to cool, but for what is close to the setpoint.
            let expected = match (reason, load) {
                (RateReason::NoChoice | RateReason::NotAboveVentilationSetpoint, _) => true,
                (RateReason::StillAboveCoolingSetpoint, _) => load == Load::Cooling,
                (RateReason::WindowsEnough, _) => load == Load::Neither,
                _ => load != Load::Heating,
            };
            assert_eq!(found > 0, expected, "{reason:?} {load:?}: {found}");
        }
    }
}

#[test]
fn sentences_on_air_temperatures_are_true() {
    by_chance("why_air", Basis::Air, 1);
}

#[test]
fn sentences_on_operative_temperatures_are_true() {
    by_chance("why_operative", Basis::Operative, 2);
}
