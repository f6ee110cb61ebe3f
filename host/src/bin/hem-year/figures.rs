//! The figures of a book's hours. An hour may have any length: what is summed or averaged over time
//! here is weighted by lengths, never counted by entries.
use crate::calendar::Moment;
use crate::convection::Convection;
use crate::plant::PlantHour;
use hem_zone::{AirChangesPerHour, Book, Conditions, Entry, State};
use std::ops::Range;

/// The figures of one hour.
pub struct HourFigures {
    /// Number in the book, from 1.
    pub number: usize,
    /// Beginning, in hours since the year began.
    pub start: f64,
    /// Length, hours.
    pub length: f64,
    /// Temperatures, °C: outside during the hour, operative before it, air and operative at its end.
    pub external: f64,
    pub before: f64,
    pub air: f64,
    pub operative: f64,
    /// Demand, kWh, both at least 0.
    pub heating: f64,
    pub cooling: f64,
    /// Setpoints, °C.
    pub setpoint_heat: f64,
    pub setpoint_cool: f64,
    /// The heating setpoint is higher than in the hour before: what was let cool is warmed up.
    pub warm_up: bool,
    /// The cooling setpoint is lower than in the hour before.
    pub cool_down: bool,
    /// Windows were opened beyond the required rate.
    pub windows: bool,
    /// Not held by a book: none until it is calculated.
    pub convection: Convection,
    /// What a plant of limited power did, where the hour has limits.
    pub plant: Option<PlantHour>,
}

impl HourFigures {
    /// Mean heating power of the hour, kW.
    pub fn heating_power(&self) -> f64 {
        self.heating / self.length
    }

    /// Mean cooling power of the hour, kW.
    pub fn cooling_power(&self) -> f64 {
        self.cooling / self.length
    }

    pub fn end(&self) -> f64 {
        self.start + self.length
    }

    pub fn date(&self) -> String {
        Moment(self.start).date()
    }

    /// Which part of the hour lies in a time, 0 to 1. It goes by whole milliseconds, so that an hour
    /// whose beginning is a rounded sum has no part in the day before or after its own.
    pub fn share_in(&self, time: &Range<f64>) -> f64 {
        let whole = |hours: f64| (hours * 3_600_000.0).round();
        let (start, end) = (whole(self.start), whole(self.end()));
        let overlap = end.min(whole(time.end)) - start.max(whole(time.start));
        (overlap / (end - start)).clamp(0.0, 1.0)
    }
}

/// Whether every hour has the length of one, so that hours can be counted by entries.
pub fn all_an_hour_long(hours: &[HourFigures]) -> bool {
    hours.iter().all(|hour| hour.length == 1.0)
}

/// What was before an hour.
struct Before {
    operative: f64,
    setpoint_heat: f64,
    setpoint_cool: f64,
}

/// The figures of a book's hours in order. Before the first are the temperatures of start-up.
pub fn figures(book: &Book, start_up: &State) -> Vec<HourFigures> {
    let mut start = 0.0;
    let mut before = at_first(book, start_up);
    let mut hours = Vec::with_capacity(book.hours());
    for (place, entry) in book.entries().enumerate() {
        let hour = of_entry(place, &entry, start, &before);
        start = hour.end();
        before = Before {
            operative: hour.operative,
            setpoint_heat: hour.setpoint_heat,
            setpoint_cool: hour.setpoint_cool,
        };
        hours.push(hour);
    }
    hours
}

/// Before the first hour is start-up, which holds the first set temperature.
fn at_first(book: &Book, start_up: &State) -> Before {
    let zone = book.zone();
    Before {
        operative: zone.temp_operative(start_up).unwrap_or(f64::NAN),
        setpoint_heat: first_set_temperature(zone.head()),
        setpoint_cool: f64::NEG_INFINITY,
    }
}

/// The value `temp_setpnt_init` of a head.
fn first_set_temperature(head: &[u8]) -> f64 {
    head[41..49].try_into().map_or(f64::INFINITY, f64::from_be_bytes)
}

fn of_entry(place: usize, entry: &Entry, start: f64, before: &Before) -> HourFigures {
    let (conditions, demand) = (entry.conditions(), entry.demand());
    HourFigures {
        number: place + 1,
        start,
        length: conditions.delta_t_h,
        external: conditions.temp_ext_air,
        before: before.operative,
        air: entry.state().temp_internal_air(),
        operative: entry.temp_operative(),
        heating: demand.space_heat_demand,
        // 0 − 0 is 0, where a negation would show −0.
        cooling: 0.0 - demand.space_cool_demand,
        setpoint_heat: conditions.temp_setpnt_heat,
        setpoint_cool: conditions.temp_setpnt_cool,
        warm_up: conditions.temp_setpnt_heat > before.setpoint_heat,
        cool_down: conditions.temp_setpnt_cool < before.setpoint_cool,
        windows: windows_used(&conditions, demand.ach_cooling),
        convection: Convection::default(),
        plant: PlantHour::of(entry),
    }
}

/// Whether the chosen rate is beyond the required one.
pub fn windows_used(conditions: &Conditions, rate: f64) -> bool {
    match conditions.ach {
        AirChangesPerHour::Cooling { .. } => false,
        AirChangesPerHour::TargetAndWindowsOpen { ach_target, .. } => rate != ach_target,
    }
}

#[cfg(test)]
pub mod tests {
    use super::*;

    /// An hour of this demand, without cooling and without limits.
    pub fn hour(start: f64, length: f64, heating: f64, operative: f64) -> HourFigures {
        HourFigures {
            number: 1,
            start,
            length,
            external: operative / 2.0,
            before: 20.0,
            air: 20.0,
            operative,
            heating,
            cooling: 0.0,
            setpoint_heat: 20.0,
            setpoint_cool: 25.0,
            warm_up: false,
            cool_down: false,
            windows: false,
            convection: Convection::default(),
            plant: None,
        }
    }

    #[test]
    fn an_hour_is_shared_out_by_time() {
        let long = hour(12.0, 48.0, 96.0, 20.0);
        let shares = [0.0..24.0, 24.0..48.0, 48.0..72.0, 72.0..96.0].map(|day| long.share_in(&day));
        assert_eq!(shares, [0.25, 0.5, 0.25, 0.0]);
        // A beginning that is a rounded sum has no part in the day beside its own.
        assert_eq!(hour(24.0 - 1e-11, 0.1, 1.0, 20.0).share_in(&(0.0..24.0)), 0.0);
        assert_eq!(hour(23.0 + 1e-11, 1.0, 1.0, 20.0).share_in(&(24.0..48.0)), 0.0);
    }
}
