//! hem-year why: a sentence for each reason, word by word, over hours of House P.
mod common;
mod why_sentences;
#[path = "common/why.rs"]
mod worked;

use hem_zone::samples::house_p;
use hem_zone::{AirChangesPerHour, Conditions, Limits, Load, RateReason, Why, NO_CONTROL};
use why_sentences::{must_be_true, rates, reasons, said, windows, with_book, with_rule};

const FIXED: AirChangesPerHour = AirChangesPerHour::Cooling { ach_cooling: 0.5 };
const CLOSED: &str = "the windows stay closed, at 0.5 air changes per hour, since";

/// What is said of an hour that follows House P's start-up, at 20 °C.
#[track_caller]
fn must_say(name: &str, hour: &Conditions, reason: RateReason, load: Load, sentence: &str) {
    let (folder, book) = with_book(name, &house_p(), std::slice::from_ref(hour));
    let words = said(&folder, 1);
    assert_eq!(words, sentence);
    assert_eq!(reasons(&book), [Why { reason, load }]);
    must_be_true(&words);
    // No limit of a plant has a part in it.
    let (folder, _) = with_rule(
        name,
        &house_p(),
        std::slice::from_ref(hour),
        Limits { heating: 0.0, cooling: 0.0 },
    );
    assert_eq!(said(&folder, 1), sentence);
}

#[test]
fn no_choice_of_rates() {
    let name = "why_no_choice";
    let fixed = |temp_ext_air| Conditions { ach: FIXED, ..windows(temp_ext_air) };
    for (hour, load, sentence) in [
        (
            fixed(0.0),
            Load::Heating,
            "the air change rate is fixed, at 0.5 per hour; the hour asks for 0.62 kWh of heating, since without \
             heating or cooling the air temperature would be 14.1 °C, below the heating setpoint of 18 °C",
        ),
        (
            fixed(20.0),
            Load::Neither,
            "the air change rate is fixed, at 0.5 per hour; the hour asks for neither heating nor cooling, since \
             without heating or cooling the air temperature would be 19.5 °C, within the setpoints of 18 and 25 °C",
        ),
        (
            fixed(60.0),
            Load::Cooling,
            "the air change rate is fixed, at 0.5 per hour; the hour asks for 0.83 kWh of cooling, since without \
             heating or cooling the air temperature would be 30.2 °C, above the cooling setpoint of 25 °C",
        ),
        (
            Conditions { ach: rates(0.5, 0.5), ..windows(60.0) },
            Load::Cooling,
            "the air change rate is 0.5 per hour, whether the windows are open or closed; the hour asks for 0.83 \
             kWh of cooling, since without heating or cooling the air temperature would be 30.2 °C, above the \
             cooling setpoint of 25 °C",
        ),
        // Zeros of both signs are one rate.
        (
            Conditions { ach: rates(-0.0, 0.0), ..windows(20.0) },
            Load::Neither,
            "the air change rate is 0 per hour, whether the windows are open or closed; the hour asks for neither \
             heating nor cooling, since without heating or cooling the air temperature would be 20.0 °C, within the \
             setpoints of 18 and 25 °C",
        ),
        // 100 W that are on in any case.
        (
            Conditions { gains_heat_cool_convective: 100.0, temp_setpnt_cool: NO_CONTROL, ..fixed(20.0) },
            Load::Neither,
            "the air change rate is fixed, at 0.5 per hour; the hour asks for neither heating nor cooling, since \
             without more heating or cooling the air temperature would be 20.1 °C, not below the heating setpoint \
             of 18 °C, and there is no cooling setpoint",
        ),
    ] {
        must_say(name, &hour, RateReason::NoChoice, load, sentence);
    }
}

#[test]
fn not_above_the_ventilation_setpoint() {
    let name = "why_ventilation_setpoint";
    let reason = RateReason::NotAboveVentilationSetpoint;
    let vent = |setpoint, temp_ext_air| Conditions {
        temp_setpnt_cool_vent: setpoint,
        ..windows(temp_ext_air)
    };
    for (hour, load, sentence) in [
        (
            windows(0.0),
            Load::Heating,
            "without heating or cooling the air temperature would be 14.1 °C, not above the ventilation setpoint of \
             22 °C; the hour asks for 0.62 kWh of heating, since 14.1 °C is below the heating setpoint of 18 °C",
        ),
        (
            windows(20.0),
            Load::Neither,
            "without heating or cooling the air temperature would be 19.5 °C, not above the ventilation setpoint of \
             22 °C; the hour asks for neither heating nor cooling, since 19.5 °C is within the setpoints of 18 and \
             25 °C",
        ),
        // Set above the cooling setpoint, so that the house is cooled before a window is opened.
        (
            vent(30.25, 60.0),
            Load::Cooling,
            "without heating or cooling the air temperature would be 30.19 °C, not above the ventilation setpoint of \
             30.25 °C; the hour asks for 0.83 kWh of cooling, since 30.19 °C is above the cooling setpoint of 25 °C",
        ),
        (
            vent(30.19, 60.0),
            Load::Cooling,
            "without heating or cooling the air temperature would be 30.188 °C, not above the ventilation setpoint of \
             30.19 °C; the hour asks for 0.83 kWh of cooling, since 30.188 °C is above the cooling setpoint of 25 °C",
        ),
        (
            vent(NO_CONTROL, 60.0),
            Load::Cooling,
            "the hour has no ventilation setpoint, above which they would be opened; the hour asks for 0.83 kWh of \
             cooling, since without heating or cooling the air temperature would be 30.2 °C, above the cooling \
             setpoint of 25 °C",
        ),
    ] {
        must_say(name, &hour, reason, load, &format!("{CLOSED} {sentence}"));
    }
    // All at 20 °C: at the setpoint is not above it.
    let level = Conditions { ach: rates(1.0, 3.0), avg_air_supply_temp: 20.0, ..vent(20.0, 20.0) };
    let sentence = "the windows stay closed, at 1 air change per hour, since without heating or cooling the air \
                    temperature would be 20.0 °C, not above the ventilation setpoint of 20 °C; the hour asks for \
                    neither heating nor cooling, since 20.0 °C is within the setpoints of 18 and 25 °C";
    must_say(name, &level, reason, Load::Neither, sentence);
}

#[test]
fn air_not_above_the_supplied_air() {
    let supplied = |supply, cool| Conditions {
        avg_air_supply_temp: supply,
        temp_setpnt_cool: cool,
        ..windows(40.0)
    };
    for (hour, load, sentence) in [
        (
            supplied(26.0, 25.0),
            Load::Cooling,
            "without heating or cooling the air temperature would be 25.98 °C, not above the 26 °C of the supplied \
             air; the hour asks for 0.16 kWh of cooling, since 25.98 °C is above the cooling setpoint of 25 °C",
        ),
        (
            supplied(30.5, 28.0),
            Load::Neither,
            "without heating or cooling the air temperature would be 26.5 °C, not above the 30.5 °C of the supplied \
             air; the hour asks for neither heating nor cooling, since 26.5 °C is within the setpoints of 18 and 28 °C",
        ),
    ] {
        let sentence = format!("{CLOSED} {sentence}");
        must_say("why_supply", &hour, RateReason::NotAboveSupply, load, &sentence);
    }
}

#[test]
fn windows_that_would_not_cool() {
    // The target is above the rate with windows open.
    let turned =
        |supply| Conditions { avg_air_supply_temp: supply, ach: rates(3.0, 0.5), ..windows(60.0) };
    for (hour, load, sentence) in [
        (
            turned(15.0),
            Load::Neither,
            "the windows stay closed, at 3 air changes per hour, since with them open, at 0.5 air changes per hour, the \
             air temperature without heating or cooling would be 30.2 °C, not below the 24.97 °C with them closed; the \
             hour asks for neither heating nor cooling, since 24.97 °C is within the setpoints of 18 and 25 °C",
        ),
        (
            turned(20.0),
            Load::Cooling,
            "the windows stay closed, at 3 air changes per hour, since with them open, at 0.5 air changes per hour, the \
             air temperature without heating or cooling would be 30.7 °C, not below the 27.0 °C with them closed; the \
             hour asks for 0.50 kWh of cooling, since 27.0 °C is above the cooling setpoint of 25 °C",
        ),
    ] {
        must_say("why_no_use", &hour, RateReason::WindowsDoNotCool, load, sentence);
    }
}

#[test]
fn still_above_the_cooling_setpoint() {
    let setpoints = |vent, cool| Conditions {
        temp_setpnt_cool_vent: vent,
        temp_setpnt_cool: cool,
        ..windows(60.0)
    };
    for (hour, sentence) in [
        (
            setpoints(22.0, 24.0),
            "even with them fully open, at 3 air changes per hour, the air temperature without heating or cooling would \
             still be 25.0 °C, above the cooling setpoint of 24 °C; the hour asks for 1.00 kWh of cooling, since with \
             them closed it would be 30.2 °C, above the cooling setpoint of 24 °C",
        ),
        (
            setpoints(26.0, 25.0),
            "at 2.32 air changes per hour, the rate for the ventilation setpoint of 26 °C, the air temperature without \
             heating or cooling would still be 26.0 °C, above the cooling setpoint of 25 °C; the hour asks for 0.83 kWh \
             of cooling, since with them closed it would be 30.2 °C, above the cooling setpoint of 25 °C",
        ),
    ] {
        let sentence = format!("{CLOSED} {sentence}");
        let reason = RateReason::StillAboveCoolingSetpoint;
        must_say("why_too_little", &hour, reason, Load::Cooling, &sentence);
    }
}

#[test]
fn windows_that_are_enough() {
    for (hour, sentence) in [
        (
            windows(40.0),
            "the windows are opened to 2.43 air changes per hour, since with them closed the air temperature without \
             heating or cooling would be 24.8 °C, above the ventilation setpoint of 22 °C, and so it would be 22.0 °C, \
             not above the cooling setpoint of 25 °C; the hour asks for neither heating nor cooling, since 22.0 °C is \
             within the setpoints of 18 and 25 °C",
        ),
        (
            windows(60.0),
            "the windows are fully open, at 3 air changes per hour, since with them closed the air temperature without \
             heating or cooling would be 30.2 °C, above the ventilation setpoint of 22 °C, and so it would be 24.97 °C, \
             not above the cooling setpoint of 25 °C; the hour asks for neither heating nor cooling, since 24.97 °C is \
             within the setpoints of 18 and 25 °C",
        ),
        (
            Conditions { temp_setpnt_cool: NO_CONTROL, ..windows(40.0) },
            "the windows are opened to 2.43 air changes per hour, since with them closed the air temperature without \
             heating or cooling would be 24.8 °C, above the ventilation setpoint of 22 °C, and so it would be 22.0 °C; \
             the hour asks for neither heating nor cooling, since 22.0 °C is not below the heating setpoint of 18 °C, \
             and there is no cooling setpoint",
        ),
    ] {
        must_say("why_enough", &hour, RateReason::WindowsEnough, Load::Neither, sentence);
    }
}
