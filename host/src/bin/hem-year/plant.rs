//! What a plant of limited power did in the hours that have limits: those of entry version 3.
use crate::figures::HourFigures;
use crate::load::Load;
use crate::sums::Sums;
use hem_zone::{Entry, HeldLimit, Limits};

/// A plant in one hour.
#[derive(Clone, Copy, Debug, PartialEq)]
pub struct PlantHour {
    pub limits: Limits,
    /// The limit that held, where one did.
    pub held: Option<HeldLimit>,
    /// What the hour asked for beyond the limit that held, kWh.
    unmet: f64,
}

impl PlantHour {
    /// The plant of an entry that has limits. Which of them held is what the engine found too.
    pub fn of(entry: &Entry) -> Option<Self> {
        let (limits, held) = (entry.limits()?, entry.held_limit());
        let (demand, length) = (entry.demand(), entry.conditions().delta_t_h);
        let beyond = match held {
            Some(HeldLimit::Heating) => demand.space_heat_demand - limits.heating * length / 1000.0,
            Some(HeldLimit::Cooling) => {
                -demand.space_cool_demand - limits.cooling * length / 1000.0
            }
            None => 0.0,
        };
        // A power just beyond the limit may be no energy beyond it, since each is rounded for itself.
        Some(Self { limits, held, unmet: beyond.max(0.0) })
    }

    /// What heating, or cooling, left unmet, kWh.
    pub fn unmet(&self, side: HeldLimit) -> f64 {
        if self.held == Some(side) {
            self.unmet
        } else {
            0.0
        }
    }

    /// The limit of heating, or of cooling, W.
    pub fn limit(&self, side: HeldLimit) -> f64 {
        match side {
            HeldLimit::Heating => self.limits.heating,
            HeldLimit::Cooling => self.limits.cooling,
        }
    }
}

/// An hour in which a limit held.
pub struct HeldHour<'a> {
    pub hour: &'a HourFigures,
    /// The limit, W.
    pub limit: f64,
    /// What was left unmet, kWh.
    pub unmet: f64,
}

/// Heating, or cooling, of all hours with limits.
pub struct Side<'a> {
    /// The least and the greatest limit, W.
    pub least: f64,
    pub greatest: f64,
    /// The hours in which the limit held: those that left most unmet first, the earlier of equals.
    pub held: Vec<HeldHour<'a>>,
    /// How long it held, hours.
    pub time: f64,
    /// What was delivered in all hours with limits and what was left unmet, kWh.
    pub delivered: f64,
    pub unmet: f64,
    /// Of the hours in which it held, the one that ended coldest, for cooling warmest; the first of equals.
    pub worst: Option<&'a HourFigures>,
}

impl<'a> Side<'a> {
    /// Nothing where no hour has limits.
    pub fn of(hours: &'a [HourFigures], load: &Load) -> Option<Self> {
        let limited = || hours.iter().filter_map(|hour| Some((hour, hour.plant?)));
        limited().next()?;
        let mut sums = Sums::default();
        limited().for_each(|(hour, _)| sums.add(hour, 1.0));
        let limits = || limited().map(|(_, plant)| plant.limit(load.side));
        let held = limited().filter(|(_, plant)| plant.held == Some(load.side));
        let mut held: Vec<HeldHour> = held
            .map(|(hour, plant)| HeldHour {
                hour,
                limit: plant.limit(load.side),
                unmet: plant.unmet(load.side),
            })
            .collect();
        let worst = worst(&held, load.side);
        held.sort_by(|a, b| b.unmet.total_cmp(&a.unmet));
        Some(Self {
            least: limits().fold(f64::INFINITY, f64::min),
            greatest: limits().fold(0.0, f64::max),
            held,
            time: (load.short)(&sums).held,
            delivered: load.delivered(&sums),
            unmet: (load.short)(&sums).unmet,
            worst,
        })
    }

    /// The limit that held, W, where it was the same in all hours in which one did.
    pub fn one_limit(&self) -> Option<f64> {
        let first = self.held.first()?.limit;
        self.held.iter().all(|held| held.limit == first).then_some(first)
    }
}

fn worst<'a>(held: &[HeldHour<'a>], side: HeldLimit) -> Option<&'a HourFigures> {
    let hours = held.iter().map(|held| held.hour);
    let by_temperature = |a: &&HourFigures, b: &&HourFigures| a.operative.total_cmp(&b.operative);
    match side {
        HeldLimit::Heating => hours.min_by(by_temperature),
        HeldLimit::Cooling => hours.rev().max_by(by_temperature),
    }
}
