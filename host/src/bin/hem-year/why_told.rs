//! The numbers of an hour's sentence in words. What was given is told in full where that is short, what was
//! calculated to one decimal of a degree; either to as many more as it takes to tell what is compared apart.
use crate::why_hour::{Free, Hour};
use crate::words::{given, told};
use hem_zone::{Basis, RateReason};

/// An hour, and what has been found out about it, so far as its reason asks for it.
pub struct Told<'a> {
    pub hour: &'a Hour<'a>,
    /// With windows closed.
    pub free: Option<Free>,
    /// With windows open.
    pub open: Option<Free>,
    /// With the rate that was found for the ventilation setpoint.
    pub found: Option<Found>,
}

#[derive(Clone, Copy)]
pub struct Found {
    pub rate: f64,
    pub free: Free,
}

impl<'a> Told<'a> {
    pub fn of(hour: &'a Hour<'a>, reason: RateReason) -> Self {
        let (target, open) = hour.rates();
        let found = match reason {
            RateReason::StillAboveCoolingSetpoint => hour.rate_found(),
            RateReason::WindowsEnough => Some(hour.demand.ach_cooling),
            _ => None,
        };
        Self {
            hour,
            free: hour.free(target),
            open: (reason == RateReason::WindowsDoNotCool).then(|| hour.free(open)).flatten(),
            found: found.and_then(|rate| Some(Found { rate, free: hour.free(rate)? })),
        }
    }

    pub fn controlled(&self) -> &'static str {
        controlled(self.hour.basis)
    }

    /// What calculated temperatures leave out.
    pub fn without_load(&self) -> &'static str {
        let conditions = &self.hour.conditions;
        let on = [conditions.gains_heat_cool_convective, conditions.gains_heat_cool_radiative];
        match on.iter().any(|gains| *gains != 0.0) {
            true => "without more heating or cooling",
            false => "without heating or cooling",
        }
    }

    // ---- temperatures ----

    pub fn heating_setpoint(&self) -> String {
        format!(
            "the heating setpoint of {} °C",
            self.of_load(self.hour.conditions.temp_setpnt_heat)
        )
    }

    pub fn cooling_setpoint(&self) -> String {
        format!(
            "the cooling setpoint of {} °C",
            self.of_load(self.hour.conditions.temp_setpnt_cool)
        )
    }

    /// A setpoint of the load, without its unit: any temperature may be held against it.
    pub fn of_load(&self, setpoint: f64) -> String {
        let all = [self.free, self.open, self.found.map(|found| found.free)];
        let beside: Vec<f64> = all.iter().flatten().map(|free| free.controlled).collect();
        given(setpoint, &beside)
    }

    /// The one with windows closed is held against it.
    pub fn ventilation_setpoint(&self) -> String {
        let beside: Vec<f64> = self.free.iter().map(|free| free.controlled).collect();
        let setpoint = given(self.hour.conditions.temp_setpnt_cool_vent, &beside);
        format!("the ventilation setpoint of {setpoint} °C")
    }

    /// The air with windows closed is held against it.
    pub fn supplied_air(&self) -> String {
        let beside: Vec<f64> = self.free.iter().map(|free| free.air).collect();
        let supply = given(self.hour.conditions.avg_air_supply_temp, &beside);
        format!("the {supply} °C of the supplied air")
    }

    /// A temperature that was calculated, and is held against the setpoints of the load and against others.
    pub fn degrees(&self, temperature: f64, beside: &[f64]) -> String {
        let conditions = &self.hour.conditions;
        let setpoints = [conditions.temp_setpnt_heat, conditions.temp_setpnt_cool];
        format!("{} °C", told(temperature, 1, &[&setpoints, beside].concat()))
    }

    // ---- rates ----

    pub fn target(&self) -> String {
        self.rate(self.hour.rates().0)
    }

    pub fn open(&self) -> String {
        self.rate(self.hour.rates().1)
    }

    /// A rate that was given, without its unit.
    pub fn rate(&self, rate: f64) -> String {
        let (target, open) = self.hour.rates();
        given(rate, &[target, open])
    }

    /// The rate that was found, which lies between the two that were given or is one of them.
    pub fn found_rate(&self, rate: f64) -> String {
        let (target, open) = self.hour.rates();
        match rate == target || rate == open {
            true => self.rate(rate),
            false => told(rate, 2, &[target, open]),
        }
    }
}

/// The temperature that setpoints are of.
pub fn controlled(basis: Basis) -> &'static str {
    match basis {
        Basis::Air => "the air temperature",
        Basis::Operative => "the operative temperature",
    }
}

/// A rate with its unit.
pub fn air_changes(rate: &str) -> String {
    match rate {
        "1" => "1 air change per hour".into(),
        _ => format!("{rate} air changes per hour"),
    }
}
