//! Why an hour has its rate, worked out apart from the engine's own answer: from the temperatures of updates at
//! the hour's rates, by the tests of Specification, Why this rate, why this load, in their order; and its load, from the numbers of its
//! demand.
#![allow(dead_code)] // Each file of tests uses a part of this.
use hem_zone::{
    AirChangesPerHour, Basis, Conditions, Demand, Head, Load, RateReason, Refusal, State, Zone,
    NO_CONTROL,
};

// ---- the two closenesses ----

fn relative_eq(a: f64, b: f64, epsilon: f64, max_relative: f64) -> bool {
    let (difference, larger) = ((a - b).abs(), a.abs().max(b.abs()));
    a == b
        || (a.is_finite()
            && b.is_finite()
            && (difference <= epsilon || difference <= max_relative * larger))
}

pub fn close_in_demand(a: f64, b: f64) -> bool {
    relative_eq(a, b, 1e-10, 1e-9)
}

pub fn close_in_windows_test(a: f64, b: f64) -> bool {
    relative_eq(a, b, 1e-8, 1e-10)
}

// ---- temperatures without demand ----

/// The temperature that setpoints are held against, and the air's, at the end of an hour without demand.
#[derive(Clone, Copy, Debug)]
pub struct Free {
    pub control: f64,
    pub air: f64,
}

/// A house, the temperatures before an hour, and the hour.
pub struct Asked<'a> {
    pub head: &'a Head,
    pub zone: &'a Zone,
    pub before: &'a State,
    pub hour: Conditions,
}

impl Asked<'_> {
    /// The temperatures at this rate: an update by what heating or cooling gives in any case. Its own range of
    /// gains and fractions is narrower than the demand's, so that it may be refused with 9.
    pub fn free(&self, ach: f64) -> Result<Free, Refusal> {
        let convective = self.hour.gains_heat_cool_convective;
        let gains = convective + self.hour.gains_heat_cool_radiative;
        let fraction = if close_in_demand(gains, 0.0) { 0.0 } else { convective / gains };
        let (after, _) =
            self.zone.update_temperatures(self.before, &self.hour, gains, fraction, ach)?;
        let air = after.temp_internal_air();
        let control = match self.head.temp_setpnt_basis {
            Basis::Air => air,
            Basis::Operative => self.zone.temp_operative(&after)?,
        };
        Ok(Free { control, air })
    }

    /// The rate without windows.
    fn target(&self) -> f64 {
        match self.hour.ach {
            AirChangesPerHour::Cooling { ach_cooling: ach }
            | AirChangesPerHour::TargetAndWindowsOpen { ach_target: ach, .. } => ach,
        }
    }

    /// The rate that is to bring the zone to a temperature: the original's `ach_req_to_reach_temperature`.
    pub fn ach_to_reach(&self, temperature: f64, target: (f64, Free), open: (f64, Free)) -> f64 {
        let ((ach_min, min), (ach_max, max)) = (target, open);
        let supply = self.hour.avg_air_supply_temp;
        if max.control >= min.control || max.air >= min.air || min.air <= supply {
            return ach_min;
        }
        let frac_interp = (temperature - min.control) / (max.control - min.control);
        let air_req = min.air + frac_interp * (max.air - min.air);
        if air_req <= supply {
            return ach_max;
        }
        let ach_req = (ach_max * frac_interp * ((max.air - supply) / (min.air - supply))
            + ach_min * (1.0 - frac_interp))
            / ((air_req - supply) / (min.air - supply));
        within(ach_req, ach_min, ach_max)
    }
}

/// Raised to the least rate, then cut at the greatest, each only where it is beyond; NaN is the least.
fn within(ach: f64, least: f64, greatest: f64) -> f64 {
    let raised = if ach.is_nan() || ach < least { least } else { ach };
    if raised > greatest {
        greatest
    } else {
        raised
    }
}

// ---- the answer ----

/// The reason, and the rate that goes with it.
#[derive(Clone, Copy, Debug, PartialEq)]
pub struct Worked {
    pub reason: RateReason,
    pub ach: f64,
}

impl Asked<'_> {
    pub fn worked(&self) -> Result<Worked, Refusal> {
        match self.hour.ach {
            AirChangesPerHour::TargetAndWindowsOpen { ach_target, ach_windows_open }
                if ach_target != ach_windows_open =>
            {
                self.chosen(ach_target, ach_windows_open)
            }
            _ => Ok(Worked { reason: RateReason::NoChoice, ach: self.target() }),
        }
    }

    fn chosen(&self, target: f64, open: f64) -> Result<Worked, Refusal> {
        let keeps = |reason| Ok(Worked { reason, ach: target });
        let (free, with_open) = (self.free(target)?, self.free(open)?);
        let (vent, cool) = (self.hour.temp_setpnt_cool_vent, self.hour.temp_setpnt_cool);
        if free.control <= vent {
            return keeps(RateReason::NotAboveVentilationSetpoint);
        }
        if free.air <= self.hour.avg_air_supply_temp {
            return keeps(RateReason::NotAboveSupply);
        }
        if with_open.control >= free.control {
            return keeps(RateReason::WindowsDoNotCool);
        }
        let ach = self.ach_to_reach(vent, (target, free), (open, with_open));
        let found = self.free(ach)?.control;
        if found > cool && !close_in_windows_test(found, cool) {
            return keeps(RateReason::StillAboveCoolingSetpoint);
        }
        Ok(Worked { reason: RateReason::WindowsEnough, ach })
    }
}

/// The load by the demand's numbers.
pub fn load_of(demand: &Demand) -> Load {
    if demand.space_heat_demand > 0.0 {
        Load::Heating
    } else if demand.space_cool_demand < 0.0 {
        Load::Cooling
    } else {
        Load::Neither
    }
}

// ---- the engine's answer beside it ----

/// How often each reason was met, from 1, beside each load, from 0; each refusal by its number; the hours that
/// an update refused with 9; those with a fixed rate; and of each reason the hours in each basis, and those with a target rate above
/// that of the windows.
#[derive(Debug, Default)]
pub struct Met {
    pub pairs: [[usize; 3]; 6],
    pub refused: [usize; 15],
    pub not_worked: usize,
    pub fixed: usize,
    pub bases: [[usize; 2]; 6],
    pub target_above: [usize; 6],
}

/// Lays the engine's answer beside the demand, and the reason beside the one worked out here. Of an hour with a
/// fixed rate the engine's answer is that of the rate twice, with which the other calls take it.
#[track_caller]
pub fn look(asked: &Asked, met: &mut Met) {
    if asked.hour.has_fixed_rate() {
        let twice = Asked { hour: asked.hour.with_rate_twice(), ..*asked };
        let why = |asked: &Asked| asked.zone.why(asked.before, &asked.hour);
        assert_eq!(why(asked), why(&twice), "{:?} {:?}", asked.head, asked.hour);
        let refusal = asked.zone.space_heat_cool_demand(asked.before, &asked.hour).unwrap_err();
        assert_eq!(refusal.number(), 8);
        met.fixed += 1;
        return look(&twice, met);
    }
    let demand = asked.zone.space_heat_cool_demand(asked.before, &asked.hour);
    let why = asked.zone.why(asked.before, &asked.hour);
    let (demand, why) = match (demand, why) {
        (Ok(demand), Ok(why)) => (demand, why),
        (demand, why) => {
            let number = demand.as_ref().map_or_else(|refusal| refusal.number(), |_| 0);
            assert_eq!(demand.err(), why.err(), "{:?} {:?}", asked.head, asked.hour);
            met.refused[number as usize] += 1;
            return;
        }
    };
    assert_eq!(why.load, load_of(&demand));
    let both = [demand.space_heat_demand, demand.space_cool_demand].map(f64::to_bits);
    assert_eq!(why.load == Load::Neither, both == [0, 0]);
    // Where there is no choice, and nowhere else, no rate would trigger heating.
    assert_eq!(why.reason == RateReason::NoChoice, demand.ach_to_trigger_heating.is_none());
    if why.reason != RateReason::WindowsEnough {
        assert_eq!(demand.ach_cooling.to_bits(), asked.target().to_bits());
    }
    match asked.worked() {
        Ok(worked) => {
            let found = (why.reason, demand.ach_cooling.to_bits());
            assert_eq!(found, (worked.reason, worked.ach.to_bits()), "{:?}", asked.hour);
        }
        Err(refusal) => {
            assert_eq!(refusal.number(), 9);
            met.not_worked += 1;
        }
    }
    look_without_cooling(asked, why.reason);
    met.note(asked, why.reason, why.load);
}

/// The cooling setpoint has to do with the last two reasons alone: without one, windows are enough there.
#[track_caller]
fn look_without_cooling(asked: &Asked, reason: RateReason) {
    let hour = Conditions { temp_setpnt_cool: NO_CONTROL, ..asked.hour.clone() };
    if let Ok(without) = asked.zone.why(asked.before, &hour) {
        let last = [RateReason::StillAboveCoolingSetpoint, RateReason::WindowsEnough];
        let expected = if last.contains(&reason) { last[1] } else { reason };
        assert_eq!(without.reason, expected);
    }
}

impl Met {
    fn note(&mut self, asked: &Asked, reason: RateReason, load: Load) {
        let place = reason.number() as usize - 1;
        self.pairs[place][load as usize] += 1;
        self.bases[place][(asked.head.temp_setpnt_basis == Basis::Operative) as usize] += 1;
        if let AirChangesPerHour::TargetAndWindowsOpen { ach_target, ach_windows_open } =
            asked.hour.ach
        {
            self.target_above[place] += (ach_target > ach_windows_open) as usize;
        }
    }
}
