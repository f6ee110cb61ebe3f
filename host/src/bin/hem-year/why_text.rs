//! The sentence on an hour: why it has its air change rate, with the numbers that were compared, and why it asks
//! for its load.
use crate::why_hour::{Free, Hour};
use crate::why_load::{load, Judged};
use crate::why_told::{air_changes, Found, Told};
use crate::words;
use hem_zone::{AirChangesPerHour, Basis, RateReason, Why, NO_CONTROL};

/// What is said of a rate, and the temperature at that rate where it is known.
type Rate = (String, Option<Judged>);

pub fn sentence(hour: &Hour, why: Why) -> String {
    let told = Told::of(hour, why.reason);
    let (rate, judged) = match why.reason {
        RateReason::NoChoice => no_choice(&told),
        RateReason::NotAboveVentilationSetpoint => not_above_ventilation_setpoint(&told),
        RateReason::NotAboveSupply => not_above_supply(&told),
        RateReason::WindowsDoNotCool => windows_do_not_cool(&told),
        RateReason::StillAboveCoolingSetpoint => still_above_cooling_setpoint(&told),
        RateReason::WindowsEnough => windows_enough(&told),
    };
    format!("{rate}; {}", load(&told, why.load, judged.as_ref()))
}

fn closed(told: &Told, since: String) -> String {
    format!("the windows stay closed, at {}, since {since}", air_changes(&told.target()))
}

/// A temperature that was told before.
fn told_before(temperature: f64, words: &str) -> Judged {
    Judged { temperature, words: format!("{words} is") }
}

/// The temperature with windows closed, where it was not told before.
fn told_now(told: &Told, when: &str) -> Option<Judged> {
    let Free { controlled: temperature, .. } = told.free?;
    let words = told.degrees(temperature, &[]);
    let words = format!("{when} {} would be {words},", told.controlled());
    Some(Judged { temperature, words: words.trim_start().into() })
}

// ---- the reasons for windows that stay closed ----

fn no_choice(told: &Told) -> Rate {
    let rate = match told.hour.conditions.ach {
        AirChangesPerHour::Cooling { .. } => {
            format!("the air change rate is fixed, at {} per hour", told.target())
        }
        AirChangesPerHour::TargetAndWindowsOpen { .. } => format!(
            "the air change rate is {} per hour, whether the windows are open or closed",
            told.target()
        ),
    };
    (rate, told_now(told, told.without_load()))
}

fn not_above_ventilation_setpoint(told: &Told) -> Rate {
    let setpoint = told.hour.conditions.temp_setpnt_cool_vent;
    if setpoint == NO_CONTROL {
        let since = "the hour has no ventilation setpoint, above which they would be opened";
        return (closed(told, since.into()), told_now(told, told.without_load()));
    }
    let would = format!("{} {} would", told.without_load(), told.controlled());
    let name = told.ventilation_setpoint();
    let Some(Free { controlled: free, .. }) = told.free else {
        return (closed(told, format!("{would} not be above {name}")), None);
    };
    let words = told.degrees(free, &[setpoint]);
    let since = format!("{would} be {words}, not above {name}");
    (closed(told, since), Some(told_before(free, &words)))
}

fn not_above_supply(told: &Told) -> Rate {
    let supply = told.hour.conditions.avg_air_supply_temp;
    let would = format!("{} the air temperature would", told.without_load());
    let name = told.supplied_air();
    let Some(Free { air, .. }) = told.free else {
        return (closed(told, format!("{would} not be above {name}")), None);
    };
    let (words, judged) = match told.hour.basis {
        Basis::Air => {
            let words = told.degrees(air, &[supply]);
            (words.clone(), Some(told_before(air, &words)))
        }
        Basis::Operative => (format!("{} °C", words::told(air, 1, &[supply])), told_now(told, "")),
    };
    (closed(told, format!("{would} be {words}, not above {name}")), judged)
}

fn windows_do_not_cool(told: &Told) -> Rate {
    let open = format!("with them open, at {}, {}", air_changes(&told.open()), told.controlled());
    let Some((free, with_open)) = told.free.zip(told.open) else {
        return (closed(told, format!("{open} would not be lower")), None);
    };
    let (free, with_open) = (free.controlled, with_open.controlled);
    let words = told.degrees(free, &[with_open]);
    let since = format!(
        "{open} {} would be {} °C, not below the {words} with them closed",
        told.without_load(),
        words::told(with_open, 1, &[free])
    );
    (closed(told, since), Some(told_before(free, &words)))
}

fn still_above_cooling_setpoint(told: &Told) -> Rate {
    let setpoint = told.cooling_setpoint();
    let Some((Free { controlled: free, .. }, found)) = told.free.zip(told.found) else {
        let since = format!(
            "at the rate for {} {} would still be above {setpoint}",
            told.ventilation_setpoint(),
            told.controlled()
        );
        return (closed(told, since), None);
    };
    let with_found = found.free.controlled;
    let since = format!(
        "{}, {} {} would still be {}, above {setpoint}",
        at_the_rate_found(told, found.rate),
        told.controlled(),
        told.without_load(),
        told.degrees(with_found, &[free])
    );
    let words = format!("with them closed it would be {},", told.degrees(free, &[with_found]));
    (closed(told, since), Some(Judged { temperature: free, words }))
}

fn at_the_rate_found(told: &Told, found: f64) -> String {
    let rate = air_changes(&told.found_rate(found));
    match found == told.hour.rates().1 {
        true => format!("even with them fully open, at {rate}"),
        false => format!("at {rate}, the rate for {}", told.ventilation_setpoint()),
    }
}

// ---- windows that are enough ----

fn windows_enough(told: &Told) -> Rate {
    let (target, open) = told.hour.rates();
    match told.hour.demand.ach_cooling {
        rate if rate == target => closed_is_enough(told),
        rate if rate == open => opened_is_enough(told, "fully open, at"),
        _ => opened_is_enough(told, "opened to"),
    }
}

fn opened_is_enough(told: &Told, opened: &str) -> Rate {
    let rate = air_changes(&told.found_rate(told.hour.demand.ach_cooling));
    let would = format!(
        "the windows are {opened} {rate}, since with them closed {} {} would be",
        told.controlled(),
        told.without_load()
    );
    let name = told.ventilation_setpoint();
    let Some((Free { controlled: free, .. }, Found { free: with_found, .. })) =
        told.free.zip(told.found)
    else {
        return (format!("{would} above {name}, and they are enough"), None);
    };
    let with_found = with_found.controlled;
    let words = told.degrees(with_found, &[free]);
    let rate = format!(
        "{would} {}, above {name}, and so it would be {words}{}",
        told.degrees(free, &[told.hour.conditions.temp_setpnt_cool_vent, with_found]),
        beside_cooling_setpoint(told, with_found)
    );
    (rate, Some(told_before(with_found, &words)))
}

/// The temperature is so little above the ventilation setpoint that the rate found for that is the target.
fn closed_is_enough(told: &Told) -> Rate {
    let enough = format!("this is the rate for {} as well", told.ventilation_setpoint());
    let Some(Free { controlled: free, .. }) = told.free else {
        return (closed(told, enough), None);
    };
    let words = told.degrees(free, &[]);
    let since = format!(
        "{enough}, and {} {} would be {words}{}",
        told.controlled(),
        told.without_load(),
        beside_cooling_setpoint(told, free)
    );
    (closed(told, since), Some(told_before(free, &words)))
}

/// Where a temperature lies that the windows test found good: not above the cooling setpoint, or close to it.
fn beside_cooling_setpoint(told: &Told, temperature: f64) -> String {
    let setpoint = told.hour.conditions.temp_setpnt_cool;
    match temperature > setpoint {
        _ if setpoint == NO_CONTROL => String::new(),
        true => format!(", close to {}", told.cooling_setpoint()),
        false => format!(", not above {}", told.cooling_setpoint()),
    }
}
