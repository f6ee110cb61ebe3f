//! One hour of a book.
use crate::bytes::{f64_at, f64s_at};
use crate::conditions::Conditions;
use crate::layout::{ENTRY_CONDITIONS, ENTRY_VERSION_AT, RESULTS};
use crate::limits::{HeldLimit, Limits};
use crate::versions::{has_limits, Rule};
use crate::zone::{Demand, State, Zone};

/// One hour of a book: a view of its bytes.
#[derive(Clone, Copy, Debug)]
pub struct Entry<'a> {
    zone: &'a Zone,
    bytes: &'a [u8],
}

impl<'a> Entry<'a> {
    /// The entry of these bytes, which are as many as its version byte calls for.
    pub(crate) fn new(zone: &'a Zone, bytes: &'a [u8]) -> Self {
        Self { zone, bytes }
    }

    /// Where the results begin.
    fn results_at(&self) -> usize {
        self.zone.layout().results_at(self.version())
    }

    /// Where the temperatures begin: after three floats, the trigger byte and the trigger rate.
    fn temps_at(&self) -> usize {
        self.results_at() + RESULTS
    }

    /// All bytes of the entry, its length included.
    pub fn bytes(&self) -> &'a [u8] {
        self.bytes
    }

    /// The version of the entry, by whose rule its hour was calculated.
    pub fn version(&self) -> u64 {
        self.bytes[ENTRY_VERSION_AT].into()
    }

    /// The limits of the hour's plant, where its version has them.
    pub fn limits(&self) -> Option<Limits> {
        let at = self.zone.layout().limits_at();
        has_limits(self.version()).then(|| Limits {
            heating: f64_at(self.bytes, at),
            cooling: f64_at(self.bytes, at + 8),
        })
    }

    /// The rule by which the hour was calculated: its version, with its limits.
    pub fn rule(&self) -> Rule {
        self.limits().map_or_else(|| self.version().into(), Rule::from)
    }

    /// The bytes of the conditions.
    pub fn conditions_bytes(&self) -> &'a [u8] {
        &self.bytes[ENTRY_CONDITIONS..self.zone.layout().limits_at()]
    }

    /// The conditions by name.
    pub fn conditions(&self) -> Conditions {
        Conditions::of_accepted(self.conditions_bytes())
    }

    /// The demand of the hour, whether or not a limit held.
    pub fn demand(&self) -> Demand {
        let at = self.results_at();
        let trigger = f64_at(self.bytes, at + 25);
        Demand {
            space_heat_demand: f64_at(self.bytes, at),
            space_cool_demand: f64_at(self.bytes, at + 8),
            ach_cooling: f64_at(self.bytes, at + 16),
            ach_to_trigger_heating: (self.bytes[at + 24] == 1).then_some(trigger),
        }
    }

    /// The power that the hour asked for, W, below 0 where it is cooled.
    pub fn power(&self) -> f64 {
        self.demand().power(f64_at(self.conditions_bytes(), 0))
    }

    /// The power that was delivered in the hour, W, below 0 where it was cooled: what was asked for, or the
    /// limit that held.
    pub fn delivered(&self) -> f64 {
        let power = self.power();
        self.limits().map_or(power, |limits| limits.delivered(power))
    }

    /// The limit that held in the hour, where one did.
    pub fn held_limit(&self) -> Option<HeldLimit> {
        self.limits().and_then(|limits| limits.held(self.power()))
    }

    /// The node temperatures after the hour.
    pub fn state(&self) -> State {
        State::new(&f64s_at(self.bytes, self.temps_at(), self.zone.layout().nodes()))
    }

    /// The operative temperature after the hour, °C. It is a NaN only where the calling thread has
    /// changed its floating-point environment since the book was taken up.
    pub fn temp_operative(&self) -> f64 {
        self.zone.temp_operative(&self.state()).unwrap_or(f64::NAN)
    }
}
