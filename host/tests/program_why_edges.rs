//! hem-year why where the numbers are hard to tell apart, or are not to be had.
mod common;
mod why_sentences;
#[path = "common/why.rs"]
mod worked;

use hem_zone::samples::{hour_p, house_p};
use hem_zone::{Basis, Conditions, Head, Load, RateReason, State, Why, Zone};
use why_sentences::{
    expected, must_be_true, must_tell, numbers, rates, reasons, said, windows, with_book,
};
use worked::Asked;

/// The sentence on an hour that follows House P's start-up, at 20 °C.
#[track_caller]
fn sentence(hour: &Conditions, reason: RateReason, load: Load) -> String {
    let name = format!("why_edges_{reason:?}_{load:?}_{:?}", std::thread::current().id());
    let (folder, book) = with_book(&name, &house_p(), std::slice::from_ref(hour));
    assert_eq!(reasons(&book), [Why { reason, load }]);
    let words = said(&folder, 1);
    must_be_true(&words);
    words
}

/// The air temperature at a rate, without demand.
fn free(hour: &Conditions, rate: f64) -> f64 {
    let (head, before) = (house_p(), State::new(&[20.0; 3]));
    let zone = Zone::new(&head).unwrap();
    Asked { head: &head, zone: &zone, before: &before, hour: hour.clone() }.free(rate).unwrap().air
}

// ---- the windows and the demand have different closenesses ----

#[test]
fn windows_are_enough_beside_cooling() {
    // Up to 10 °C the windows let more pass as close than the demand does.
    let hour = Conditions {
        temp_setpnt_cool_vent: 5.000000008,
        avg_air_supply_temp: -30.0,
        ach: rates(0.5, 3.0),
        ..hour_p(0.0, 5.0)
    };
    let words = "the windows are opened to 1.83 air changes per hour, since with them closed the air temperature \
                 without heating or cooling would be 14.8 °C, above the ventilation setpoint of 5.000 °C, and so \
                 it would be 5.00000001 °C, close to the cooling setpoint of 5 °C; the hour asks for 0.000000002 kWh of \
                 cooling, since 5.00000001 °C is above the cooling setpoint of 5 °C";
    assert_eq!(sentence(&hour, RateReason::WindowsEnough, Load::Cooling), words);
    let below_0 = Conditions {
        temp_setpnt_heat: -20.0,
        temp_setpnt_cool: -0.0,
        temp_setpnt_cool_vent: 8e-9,
        ..hour
    };
    let words = "the windows are opened to 2.85 air changes per hour, since with them closed the air temperature \
                 without heating or cooling would be 14.8 °C, above the ventilation setpoint of 0.000 °C, and so \
                 it would be 0.00000001 °C, close to the cooling setpoint of 0 °C; the hour asks for 0.000000002 kWh of \
                 cooling, since 0.00000001 °C is above the cooling setpoint of 0 °C";
    assert_eq!(sentence(&below_0, RateReason::WindowsEnough, Load::Cooling), words);
}

#[test]
fn still_above_beside_neither() {
    // Above 10 °C the demand lets more pass as close than the windows do.
    let hour = windows(40.0);
    let free = free(&hour, 0.5);
    let hour =
        Conditions { temp_setpnt_cool: free - 2e-8, temp_setpnt_cool_vent: free - 8e-9, ..hour };
    let words = sentence(&hour, RateReason::StillAboveCoolingSetpoint, Load::Neither);
    let expected = "the windows stay closed, at 0.5 air changes per hour, since at 0.500000004 air changes per hour, \
                    the rate for the ventilation setpoint of 24.83226509 °C, the air temperature without heating or \
                    cooling would still be 24.83226509 °C, above the cooling setpoint of 24.83226508 °C; the hour asks \
                    for neither heating nor cooling, since with them closed it would be 24.83226510 °C, close to the \
                    cooling setpoint of 24.83226508 °C";
    assert_eq!(words, expected);
}

#[test]
fn close_to_a_setpoint_is_at_it() {
    // Everything is at 20 °C.
    let level = |heat: f64, cool: f64| hour_p(heat, cool);
    let since = |heat, cool| {
        let words = sentence(&level(heat, cool), RateReason::NoChoice, Load::Neither);
        words.rsplit_once("the air temperature would be ").unwrap().1.to_string()
    };
    assert_eq!(
        since(20.00000001, 25.0),
        "20.00000000 °C, close to the heating setpoint of 20.00000001 °C"
    );
    assert_eq!(
        since(18.0, 19.99999999),
        "20.00000000 °C, close to the cooling setpoint of 19.99999999 °C"
    );
    assert_eq!(
        since(20.00000001, 20.00000001),
        "20.00000000 °C, close to the heating setpoint of 20.00000001 °C"
    );
    assert_eq!(since(20.0, 20.0), "20.0 °C, within the setpoints of 20 and 20 °C");
}

// ---- a hair apart ----

#[test]
fn temperatures_that_look_alike_are_told_apart() {
    let hour = windows(40.0);
    let free = free(&hour, 0.5);
    for vent in [free, free.next_up(), free + 1e-12, free + 1e-6, free + 0.04] {
        let words = sentence(
            &Conditions { temp_setpnt_cool_vent: vent, ..hour.clone() },
            RateReason::NotAboveVentilationSetpoint,
            Load::Neither,
        );
        let told = numbers(&words);
        assert_eq!(told[1].partial_cmp(&told[2]), free.partial_cmp(&vent), "{words}");
    }
}

#[test]
fn a_hair_above_the_ventilation_setpoint() {
    let sentence = |hour: Conditions, target: f64, below: usize| {
        let mut hour = Conditions { ach: rates(target, 3.0), ..hour };
        let free = free(&hour, target);
        hour.temp_setpnt_cool_vent = (0..below).fold(free, |t, _| t.next_down());
        sentence(&hour, RateReason::WindowsEnough, Load::Neither)
    };
    for target in [0.0, 0.125, 0.25, 0.5, 0.625, 0.75] {
        for below in [1, 2, 30, 1000] {
            let words =
                sentence(Conditions { temp_setpnt_cool: 28.0, ..windows(40.0) }, target, below);
            assert!(words.starts_with("the windows are opened to "), "{words}");
            let told = numbers(&words);
            assert!(told[0] > target && told[1] > told[2], "{words}");
        }
    }
    // Near 0 °C a hair is so little that the rate found is the target.
    let frost = Conditions {
        temp_setpnt_heat: -20.0,
        temp_setpnt_cool: 5.0,
        avg_air_supply_temp: -17.6,
        ..windows(-40.0)
    };
    let words = "the windows stay closed, at 0.5 air changes per hour, since this is the rate for the ventilation \
                 setpoint of 0.001";
    let said = sentence(frost, 0.5, 1);
    assert!(said.starts_with(words), "{said}");
    let words = " °C as well, and the air temperature without heating or cooling would be 0.0 °C, not above the cooling \
                 setpoint of 5 °C; the hour asks for neither heating nor cooling, since 0.0 °C is within the setpoints of \
                 -20 and 5 °C";
    assert!(said.ends_with(words), "{said}");
}

#[test]
fn air_a_hair_below_the_supplied_air() {
    // Without air changes the air does not depend on what is supplied.
    let hour = Conditions { ach: rates(0.0, 3.0), ..windows(40.0) };
    let (head, air) = (Head { temp_setpnt_basis: Basis::Operative, ..house_p() }, free(&hour, 0.0));
    for supply in [air, air.next_up(), air + 1e-12, air + 1e-6, air + 0.01] {
        let hour = Conditions { avg_air_supply_temp: supply, ..hour.clone() };
        let (folder, book) = with_book("why_edges_supply", &head, &[hour]);
        let reason = RateReason::NotAboveSupply;
        assert_eq!(reasons(&book), [Why { reason, load: Load::Neither }]);
        let words = said(&folder, 1);
        let told = numbers(&words);
        assert_eq!(told[1].partial_cmp(&told[2]), air.partial_cmp(&supply), "{words}");
        let start = "the windows stay closed, at 0 air changes per hour, since without heating or cooling the air \
                     temperature would be 25.98";
        let end = " °C of the supplied air; the hour asks for neither heating nor cooling, since the operative \
                   temperature would be 24.9 °C, within the setpoints of 18 and 25 °C";
        assert!(words.starts_with(start) && words.ends_with(end), "{words}");
    }
}

#[test]
fn rates_a_hair_apart() {
    let hour = Conditions { ach: rates(0.5, 0.5_f64.next_up()), ..windows(40.0) };
    let words = sentence(&hour, RateReason::WindowsDoNotCool, Load::Neither);
    assert!(
        words.contains("with them open, at 0.5000000000000001 air changes per hour, "),
        "{words}"
    );
}

// ---- temperatures that are not to be had ----

/// 40 W that are on in any case, of which the air gets less than nothing: an update does not take that.
fn odd(hour: Conditions) -> Conditions {
    Conditions { gains_heat_cool_convective: -20.0, gains_heat_cool_radiative: 60.0, ..hour }
}

#[test]
fn without_temperatures_the_given_numbers_are_told() {
    const CLOSED: &str = "the windows stay closed, at 0.5 air changes per hour, since";
    const NEITHER: &str = "the hour asks for neither heating nor cooling";
    let hour = |change: fn(&mut Conditions)| {
        let mut hour = odd(windows(40.0));
        change(&mut hour);
        hour
    };
    for (hour, reason, words) in [
        (
            hour(|h| h.ach = rates(0.5, 0.5)),
            RateReason::NoChoice,
            "the air change rate is 0.5 per hour, whether the windows are open or closed".to_string(),
        ),
        (
            hour(|h| h.temp_setpnt_cool_vent = 40.0),
            RateReason::NotAboveVentilationSetpoint,
            format!(
                "{CLOSED} without more heating or cooling the air temperature would not be above the ventilation setpoint \
                 of 40 °C"
            ),
        ),
        (
            hour(|h| h.avg_air_supply_temp = 40.0),
            RateReason::NotAboveSupply,
            format!(
                "{CLOSED} without more heating or cooling the air temperature would not be above the 40 °C of the \
                 supplied air"
            ),
        ),
        (
            hour(|h| h.ach = rates(0.5, 0.25)),
            RateReason::WindowsDoNotCool,
            format!(
                "{CLOSED} with them open, at 0.25 air changes per hour, the air temperature would not be lower"
            ),
        ),
        (
            hour(|h| h.ach = rates(0.5, 1.0)),
            RateReason::WindowsEnough,
            "the windows are fully open, at 1 air change per hour, since with them closed the air temperature without \
             more heating or cooling would be above the ventilation setpoint of 22 °C, and they are enough"
                .to_string(),
        ),
    ] {
        let hour = Conditions { temp_setpnt_cool: 50.0, ..hour };
        assert_eq!(sentence(&hour, reason, Load::Neither), format!("{words}; {NEITHER}"));
    }
}

#[test]
fn without_temperatures_the_load_has_its_aim() {
    let head = house_p();
    for (hour, why, rate, aim) in [
        (
            Conditions { temp_setpnt_cool: 23.0, ..odd(windows(90.0)) },
            Why { reason: RateReason::StillAboveCoolingSetpoint, load: Load::Cooling },
            "since at the rate for the ventilation setpoint of 22 °C the air temperature would still be above the \
             cooling setpoint of 23 °C",
            " kWh of cooling, to keep to the cooling setpoint of 23 °C",
        ),
        (
            odd(windows(-40.0)),
            Why { reason: RateReason::NotAboveVentilationSetpoint, load: Load::Heating },
            "would not be above the ventilation setpoint of 22 °C",
            " kWh of heating, to reach the heating setpoint of 18 °C",
        ),
    ] {
        let words = sentence(&hour, why.reason, why.load);
        let (on_rate, asks) = words.split_once("; the hour asks for ").unwrap();
        assert!(on_rate.ends_with(rate) && asks.ends_with(aim), "{words}");
        let before = State::new(&[20.0; 3]);
        let zone = Zone::new(&head).unwrap();
        let demand = zone.space_heat_cool_demand(&before, &hour).unwrap();
        let asked = Asked { head: &head, zone: &zone, before: &before, hour };
        must_tell(&words, &expected(&asked, why, &demand));
    }
}
