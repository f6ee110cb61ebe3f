//! Sums over the hours of a book, or over the parts of hours that lie in a time. They go by lengths, never
//! by the number of entries.
use crate::convection::Convection;
use crate::figures::HourFigures;
use crate::plant::PlantHour;
use crate::warmth::THRESHOLDS;
use hem_zone::HeldLimit;

/// Sums, extremes and means of hours, or of the parts of hours that lie in a time.
#[derive(Default)]
pub struct Sums {
    /// Time that is covered, hours.
    pub length: f64,
    /// Demand, kWh.
    pub heating: f64,
    pub cooling: f64,
    /// Time with demand or with open windows, hours.
    pub heated: f64,
    pub cooled: f64,
    pub windows: f64,
    /// Greatest power, kW.
    pub heating_peak: f64,
    pub cooling_peak: f64,
    pub external: Spread,
    pub operative: Spread,
    /// Time above each threshold of warmth, hours.
    pub warm: [f64; THRESHOLDS.len()],
    pub convection: Convection,
    /// Where a plant of limited power was too small.
    pub heating_short: Short,
    pub cooling_short: Short,
}

impl Sums {
    /// Of all hours.
    pub fn of(hours: &[HourFigures]) -> Self {
        let mut sums = Self::default();
        hours.iter().for_each(|hour| sums.add(hour, 1.0));
        sums
    }

    /// Adds a part of an hour, from 0 to 1 of it.
    pub fn add(&mut self, hour: &HourFigures, share: f64) {
        if share <= 0.0 {
            return;
        }
        let length = share * hour.length;
        let time_if = |it: bool| if it { length } else { 0.0 };
        self.length += length;
        self.heating += share * hour.heating;
        self.cooling += share * hour.cooling;
        self.heated += time_if(hour.heating > 0.0);
        self.cooled += time_if(hour.cooling > 0.0);
        self.windows += time_if(hour.windows);
        self.heating_peak = self.heating_peak.max(hour.heating_power());
        self.cooling_peak = self.cooling_peak.max(hour.cooling_power());
        self.external.add(hour.external, length);
        self.operative.add(hour.operative, length);
        for (time, threshold) in self.warm.iter_mut().zip(&THRESHOLDS) {
            *time += time_if(hour.operative > threshold.temperature);
        }
        self.convection.add(&hour.convection, share);
        if let Some(plant) = &hour.plant {
            self.heating_short.add(plant, HeldLimit::Heating, length, share);
            self.cooling_short.add(plant, HeldLimit::Cooling, length, share);
        }
    }
}

/// How long a limit held, hours, and what was left unmet, kWh.
#[derive(Default)]
pub struct Short {
    pub held: f64,
    pub unmet: f64,
}

impl Short {
    fn add(&mut self, plant: &PlantHour, side: HeldLimit, length: f64, share: f64) {
        if plant.held == Some(side) {
            self.held += length;
            self.unmet += share * plant.unmet(side);
        }
    }
}

/// Least, greatest and mean value over time.
pub struct Spread {
    pub low: f64,
    pub high: f64,
    sum: f64,
    time: f64,
}

impl Default for Spread {
    fn default() -> Self {
        Self { low: f64::INFINITY, high: f64::NEG_INFINITY, sum: 0.0, time: 0.0 }
    }
}

impl Spread {
    fn add(&mut self, value: f64, time: f64) {
        self.low = self.low.min(value);
        self.high = self.high.max(value);
        self.sum += time * value;
        self.time += time;
    }

    pub fn mean(&self) -> f64 {
        self.sum / self.time
    }
}

/// Power and length of the loaded hours, the greatest power first.
pub fn falling(hours: &[HourFigures], power: fn(&HourFigures) -> f64) -> Vec<(f64, f64)> {
    let loaded = hours.iter().filter(|h| power(h) > 0.0);
    let mut steps: Vec<_> = loaded.map(|h| (power(h), h.length)).collect();
    steps.sort_by(|a, b| b.0.total_cmp(&a.0));
    steps
}

/// The least power that is exceeded for no longer than a time.
pub fn exceeded_for(falling: &[(f64, f64)], time: f64) -> f64 {
    let mut passed = 0.0;
    for (power, length) in falling {
        passed += length;
        if passed > time {
            return *power;
        }
    }
    0.0
}

#[cfg(test)]
mod tests {
    use super::*;
    use crate::figures::tests::hour;

    #[test]
    fn sums_go_by_length() {
        let hours =
            [hour(0.0, 0.25, 1.0, 10.0), hour(0.25, 2.0, 2.0, 20.0), hour(2.25, 0.75, 0.0, 30.0)];
        let sums = Sums::of(&hours);
        assert_eq!((sums.length, sums.heating, sums.heated), (3.0, 3.0, 2.25));
        assert_eq!((sums.heating_peak, sums.cooled), (4.0, 0.0));
        assert_eq!(sums.operative.mean(), (2.5 + 40.0 + 22.5) / 3.0);
        assert_eq!(sums.external.mean(), (1.25 + 20.0 + 11.25) / 3.0);
        assert_eq!((sums.operative.low, sums.operative.high), (10.0, 30.0));
    }

    #[test]
    fn an_hour_at_a_threshold_is_not_above_it() {
        let temperatures = [26.0, 26.0_f64.next_up(), 28.0, 28.0_f64.next_up(), -30.0];
        let hours = temperatures.map(|operative| hour(0.0, 0.5, 0.0, operative));
        assert_eq!(Sums::of(&hours).warm, [1.5, 0.5]);
    }

    #[test]
    fn a_load_is_exceeded_for_a_time() {
        let steps = [(3.0, 0.5), (2.0, 0.5), (1.0, 4.0)];
        let loads = [0.0, 0.4, 0.5, 0.9, 1.0, 4.9, 5.0].map(|time| exceeded_for(&steps, time));
        assert_eq!(loads, [3.0, 3.0, 2.0, 2.0, 1.0, 1.0, 0.0]);
    }
}
