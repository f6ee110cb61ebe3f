//! Why an hour has its air change rate, and its load: asked of what its demand is asked of.
use crate::explain::{FixedRate, Given};
use crate::ffi;
use crate::float;
use crate::lent::AsConditions;
use crate::refusal::Refusal;
use crate::zone::{judge, State, Zone};

/// Why the demand of an hour has its air change rate: the earliest of these that holds.
///
/// Temperatures are those at the end of the hour without its demand, of the air or operative by the zone's
/// [`Basis`](crate::Basis); the free temperature is that at the target rate. The rate found is the one that is
/// to bring the zone to its ventilation setpoint. It is chosen where windows are enough; at every other reason
/// the target or fixed rate is.
#[derive(Clone, Copy, Debug, PartialEq, Eq)]
pub enum RateReason {
    /// There is no choice of rates: one fixed rate is given, or both are equal.
    NoChoice = 1,
    /// The free temperature is not above the ventilation setpoint.
    NotAboveVentilationSetpoint = 2,
    /// The air at the target rate is not above the supplied air.
    NotAboveSupply = 3,
    /// Windows open would not lower the free temperature, as where the target rate is the higher of the two.
    WindowsDoNotCool = 4,
    /// With the rate found it is still above the cooling setpoint, and not close to it by the windows test:
    /// not within 1e-8, nor within 1e-10 of the larger magnitude.
    StillAboveCoolingSetpoint = 5,
    /// Windows are enough.
    WindowsEnough = 6,
}

impl RateReason {
    /// All of them, in the order in which they are tested.
    pub const ALL: [Self; 6] = [
        Self::NoChoice,
        Self::NotAboveVentilationSetpoint,
        Self::NotAboveSupply,
        Self::WindowsDoNotCool,
        Self::StillAboveCoolingSetpoint,
        Self::WindowsEnough,
    ];

    /// The engine's number, 1 to 6.
    pub fn number(self) -> u64 {
        self as u64
    }
}

/// Heating, cooling or neither, by the demand of an hour. It may cool where windows are enough, and be neither
/// where the temperature is still above the cooling setpoint: the demand has another closeness to its setpoint
/// (within 1e-10, or within 1e-9 of the larger magnitude).
#[derive(Clone, Copy, Debug, PartialEq, Eq)]
pub enum Load {
    /// The demand is 0 both ways.
    Neither = 0,
    /// Its heating is above 0.
    Heating = 1,
    /// Its cooling is below 0.
    Cooling = 2,
}

impl Load {
    /// All of them, by their numbers.
    pub const ALL: [Self; 3] = [Self::Neither, Self::Heating, Self::Cooling];
}

/// Why an hour has its rate, and its load.
#[derive(Clone, Copy, Debug, PartialEq, Eq)]
pub struct Why {
    /// Why this rate.
    pub reason: RateReason,
    /// What the demand is of.
    pub load: Load,
}

impl Why {
    fn of_numbers(reason: u64, load: u64) -> Self {
        let reason = RateReason::ALL.into_iter().find(|known| known.number() == reason);
        let load = Load::ALL.into_iter().find(|known| *known as u64 == load);
        Self { reason: reason.expect("a reason of the engine"), load: load.expect("a load") }
    }
}

impl Zone {
    /// Why the demand of an hour has its rate, and its load, from the node temperatures before it and its
    /// conditions, given as [`Conditions`](crate::Conditions) or in bytes. What
    /// [`space_heat_cool_demand`](Zone::space_heat_cool_demand) refuses is refused alike, but for a fixed rate,
    /// which is still answered for.
    ///
    /// ```
    /// use hem_zone::{samples, AirChangesPerHour, Conditions, Load, RateReason, State, Why, Zone};
    ///
    /// let zone = Zone::new(&samples::house_p())?;
    /// let warm = State::new(&[26.0; 3]);
    /// let one_rate = samples::hour_p(18.0, 24.0);
    /// let why = zone.why(&warm, &one_rate)?;
    /// assert_eq!(why, Why { reason: RateReason::NoChoice, load: Load::Cooling });
    ///
    /// // With windows that open above 22 °C.
    /// let ach = AirChangesPerHour::TargetAndWindowsOpen { ach_target: 0.0, ach_windows_open: 10.0 };
    /// let windows = Conditions { temp_setpnt_cool_vent: 22.0, ach, ..one_rate };
    /// let why = zone.why(&warm, &windows)?;
    /// assert_eq!(why, Why { reason: RateReason::WindowsEnough, load: Load::Neither });
    /// # Ok::<(), hem_zone::Refusal>(())
    /// ```
    pub fn why(
        &self,
        before: &State,
        conditions: &(impl AsConditions + ?Sized),
    ) -> Result<Why, Refusal> {
        float::must_be_standard()?;
        let conditions = &*conditions.conditions_bytes();
        let (mut reason, mut load) = (0, 0);
        // SAFETY: byte strings are valid for their lengths, the state's array has 121 floats, and what is
        // written is borrowed from nowhere else.
        let answer = unsafe {
            ffi::hem_why(
                self.head().as_ptr(),
                self.head().len(),
                before.temps.as_ptr(),
                before.nodes,
                conditions.as_ptr(),
                conditions.len(),
                &mut reason,
                &mut load,
            )
        };
        let fixed_rate = FixedRate::StillTaken;
        judge(answer, &Given { fixed_rate, ..self.given(before, conditions) })?;
        Ok(Why::of_numbers(reason, load))
    }
}

#[cfg(test)]
mod tests {
    use super::*;

    #[test]
    fn each_number_has_its_own_name() {
        for (place, reason) in RateReason::ALL.into_iter().enumerate() {
            assert_eq!(reason.number(), place as u64 + 1);
            for (number, load) in Load::ALL.into_iter().enumerate() {
                assert_eq!(load as usize, number);
                assert_eq!(Why::of_numbers(reason.number(), number as u64), Why { reason, load });
            }
        }
    }
}
