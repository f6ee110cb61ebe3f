//! Entry version 3: an hour with the limits of a plant.
#[path = "common/limited.rs"]
mod limited;

use hem_zone::samples::{hour_p, house_p};
use hem_zone::{
    Book, Conditions, Demand, HeatBalance, Limits, Rule, State, Zone, ENTRY_VERSION_1,
    ENTRY_VERSION_2,
};
use limited::{cooled, heated, hour, house};

fn zone() -> Zone {
    Zone::new(&house()).unwrap()
}

fn twenty() -> State {
    State::new(&[20.0; 3])
}

/// All values of a step, to the bit.
fn bits(step: (State, Demand, HeatBalance)) -> (State, String) {
    let (state, demand, balance) = step;
    (state, format!("{demand:?} {balance:?}"))
}

fn step(conditions: &Conditions, rule: impl Into<Rule>) -> (State, String) {
    bits(zone().hour_step(&twenty(), conditions, rule).unwrap())
}

/// What an hour asks for, W.
fn power(conditions: &Conditions) -> f64 {
    let demand = zone().space_heat_cool_demand(&twenty(), conditions).unwrap();
    demand.power(conditions.delta_t_h)
}

/// The hour as an update with this delivered power, shared by its sign.
fn by_update(conditions: &Conditions, delivered: f64) -> (State, String) {
    let demand = zone().space_heat_cool_demand(&twenty(), conditions).unwrap();
    let fraction = match delivered < 0.0 {
        true => conditions.frac_convective_cool,
        false => conditions.frac_convective_heat,
    };
    let (convective, radiative) =
        (conditions.gains_heat_cool_convective, conditions.gains_heat_cool_radiative);
    let gains = convective + radiative + delivered;
    let share = match gains == 0.0 {
        true => 0.0,
        false => (convective + delivered * fraction) / gains,
    };
    let updated =
        zone().update_temperatures(&twenty(), conditions, gains, share, demand.ach_cooling);
    let (after, balance) = updated.unwrap();
    (after, format!("{demand:?} {balance:?}"))
}

#[test]
fn within_its_limits_an_hour_is_that_of_version_2() {
    for hour in [heated(0.0), heated(8.0), cooled(0.0), cooled(8.0), hour(19.0, 60.0, 80.0)] {
        let asked = power(&hour).abs();
        for limits in [
            Limits { heating: 1e7, cooling: 1e7 },
            // A power at its limit is not beyond it.
            Limits { heating: asked, cooling: asked },
        ] {
            assert_eq!(step(&hour, limits), step(&hour, ENTRY_VERSION_2));
        }
        // The limit of the other side is none.
        let other = match power(&hour) > 0.0 {
            true => Limits::of_cooling(0.0),
            false => Limits::of_heating(0.0),
        };
        assert_eq!(step(&hour, other), step(&hour, ENTRY_VERSION_2));
    }
    assert!(power(&heated(8.0)) > 10.5 && power(&cooled(8.0)) < -10.5);
}

#[test]
fn beyond_a_limit_the_limit_is_delivered_and_the_demand_is_told_uncut() {
    for on in [0.0, 8.0] {
        for (hour, limits, delivered) in [
            (heated(on), Limits::of_heating(10.5), 10.5),
            (heated(on), Limits { heating: 3.0, cooling: 0.0 }, 3.0),
            (heated(on), Limits::of_heating(0.0), 0.0),
            (cooled(on), Limits::of_cooling(10.5), -10.5),
            (cooled(on), Limits { heating: 0.0, cooling: 3.0 }, -3.0),
            (cooled(on), Limits::of_cooling(0.0), -0.0),
            (cooled(on), Limits::of_cooling(-0.0), 0.0),
        ] {
            // The demand is among what is compared.
            assert_eq!(step(&hour, limits), by_update(&hour, delivered), "{limits:?}, {on}");
            assert_ne!(step(&hour, limits).0, step(&hour, ENTRY_VERSION_2).0);
        }
    }
}

#[test]
fn a_limit_holds_from_one_bit_beyond_it() {
    let zone = Zone::new(&house_p()).unwrap();
    let gains = |hour: &Conditions, limits| {
        let step = zone.hour_step(&twenty(), hour, limits).unwrap();
        step.2.air_node.heating_or_cooling_system_gains
    };
    for (hour, power) in [(hour_p(21.0, 24.0), 144.0_f64), (hour_p(15.0, 19.0), -144.0)] {
        for limit in [144.0_f64.next_down(), 144.0, 144.0_f64.next_up()] {
            let limits = Limits { heating: limit, cooling: limit };
            let delivered = power.signum() * limit.min(144.0);
            assert_eq!(gains(&hour, limits), delivered);
            assert_eq!(limits.delivered(power), delivered);
            assert_eq!(limits.held(power).is_some(), limit < 144.0);
        }
    }
}

#[test]
fn versions_1_and_2_look_at_no_limits() {
    let odd = [f64::NAN, f64::INFINITY, -1.0, 0.0, 1e300];
    for hour in [heated(8.0), cooled(8.0)] {
        for version in [ENTRY_VERSION_1, ENTRY_VERSION_2] {
            let mut plain = Book::begin(&house()).unwrap();
            plain.append(&hour, version).unwrap();
            for (heating, cooling) in odd.into_iter().zip(odd.into_iter().rev()) {
                let rule = Rule::new(version, Limits { heating, cooling });
                assert_eq!(step(&hour, rule), step(&hour, version));
                let mut book = Book::begin(&house()).unwrap();
                book.append(&hour, rule).unwrap();
                assert_eq!(book.bytes(), plain.bytes());
                assert_eq!(book.last_rule(), Some(version.into()));
            }
        }
    }
}

#[test]
fn the_ends_of_the_range_are_in_it() {
    let number = |limit| {
        let of = [Limits::of_heating(limit), Limits::of_cooling(limit)];
        of.map(|limits| {
            zone().hour_step(&twenty(), &heated(0.0), limits).map_or_else(|r| r.number(), |_| 0)
        })
    };
    for good in [0.0, -0.0, 5e-324, 1e7] {
        assert_eq!(number(good), [0; 2], "{good}");
    }
    for bad in [-5e-324, 1e7_f64.next_up(), f64::NAN, -f64::NAN, f64::INFINITY, f64::NEG_INFINITY] {
        assert_eq!(number(bad), [19; 2], "{bad}");
    }
}
