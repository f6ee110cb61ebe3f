//! An hour of a book with the numbers that decided its rate and its load. Each of them is an answer of the
//! engine: no temperature and no rate is worked out here.
use hem_zone::{
    AirChangesPerHour, Basis, Book, Conditions, Demand, Entry, Head, Refusal, State, Why, Zone,
};

/// An hour, the node temperatures before it, and its demand.
pub struct Hour<'a> {
    zone: &'a Zone,
    before: State,
    /// Which temperature setpoints are of.
    pub basis: Basis,
    pub conditions: Conditions,
    pub demand: Demand,
}

/// Temperatures at the end of an hour without its demand, °C.
#[derive(Clone, Copy)]
pub struct Free {
    /// The one that setpoints are of.
    pub controlled: f64,
    pub air: f64,
}

impl<'a> Hour<'a> {
    /// The hour of the entry at a place of a book, from 0.
    pub fn of(book: &'a Book, place: usize, entry: &Entry) -> Result<Self, Refusal> {
        let zone = book.zone();
        Ok(Self {
            zone,
            before: before(book, place)?,
            basis: Head::from_bytes(zone.head())?.temp_setpnt_basis,
            conditions: entry.conditions(),
            demand: entry.demand(),
        })
    }

    /// What the engine says of it.
    pub fn why(&self) -> Result<Why, Refusal> {
        self.zone.why(&self.before, &self.conditions)
    }

    /// The rates that the hour may have with windows closed and open; one that is fixed is both.
    pub fn rates(&self) -> (f64, f64) {
        match self.conditions.ach {
            AirChangesPerHour::Cooling { ach_cooling } => (ach_cooling, ach_cooling),
            AirChangesPerHour::TargetAndWindowsOpen { ach_target, ach_windows_open } => {
                (ach_target, ach_windows_open)
            }
        }
    }

    /// The temperatures at an air change rate. An update by what heating or cooling gives in any case is the
    /// very calculation that the demand makes before any load; an hour with a fixed rate, which is retired, is
    /// asked for with the rate twice. Its gains and its fraction have ranges of their own, which a sum and a
    /// share may leave: then it is refused, and nothing is known.
    pub fn free(&self, rate: f64) -> Option<Free> {
        let convective = self.conditions.gains_heat_cool_convective;
        let gains = convective + self.conditions.gains_heat_cool_radiative;
        // The demand's own share: 0 where the gains are close to 0.
        let fraction = if gains.abs() <= 1e-10 { 0.0 } else { convective / gains };
        let asked = self.conditions.with_rate_twice();
        let update = self.zone.update_temperatures(&self.before, &asked, gains, fraction, rate);
        let (after, _) = update.ok()?;
        let air = after.temp_internal_air();
        let controlled = match self.basis {
            Basis::Air => air,
            Basis::Operative => self.zone.temp_operative(&after).ok()?,
        };
        Some(Free { controlled, air })
    }

    /// The rate that was found for the ventilation setpoint, where the windows were not enough and the demand
    /// has another. The demand's trigger rate is found for the heating setpoint in the very way in which this
    /// one is for the ventilation setpoint, from temperatures in which no setpoint has a part: so it is asked
    /// for the same hour with the one in the place of the other. A cooling setpoint below them would be
    /// refused; it has no part in the rate either, and is raised.
    pub fn rate_found(&self) -> Option<f64> {
        let reached = self.conditions.temp_setpnt_cool_vent;
        let asked = Conditions {
            temp_setpnt_heat: reached,
            temp_setpnt_cool: self.conditions.temp_setpnt_cool.max(reached),
            ..self.conditions.clone()
        };
        let demand = self.zone.space_heat_cool_demand(&self.before, &asked);
        demand.ok()?.ach_to_trigger_heating
    }
}

/// The node temperatures before an hour, from 0: those after the one before it, or start-up's.
fn before(book: &Book, place: usize) -> Result<State, Refusal> {
    match place.checked_sub(1).and_then(|earlier| book.entry(earlier)) {
        Some(entry) => Ok(entry.state()),
        None => book.zone().start_up(),
    }
}
