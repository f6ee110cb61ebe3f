//! The limits of a plant, which an hour of entry version 3 has beside its conditions.

/// The greatest power of a plant, W: what its heating and its cooling deliver at most. Each is 0 to
/// [`Limits::GREATEST`]; another is refused with 19.
#[derive(Clone, Copy, Debug)]
pub struct Limits {
    /// Greatest heating, W.
    pub heating: f64,
    /// Greatest cooling, W, counted from 0 up as heating is.
    pub cooling: f64,
}

impl Limits {
    /// The greatest limit that an hour can have, W.
    pub const GREATEST: f64 = 1e7;

    /// A plant whose heating is limited to these watts. Its cooling has the greatest limit.
    pub fn of_heating(watts: f64) -> Self {
        Self { heating: watts, cooling: Self::GREATEST }
    }

    /// A plant whose cooling is limited to these watts. Its heating has the greatest limit.
    pub fn of_cooling(watts: f64) -> Self {
        Self { heating: Self::GREATEST, cooling: watts }
    }

    /// Which limit holds where a demand asks for this power, W, below 0 where it cools. A power at the
    /// limit is not beyond it.
    pub fn held(&self, power: f64) -> Option<HeldLimit> {
        if power > self.heating {
            Some(HeldLimit::Heating)
        } else if power < -self.cooling {
            Some(HeldLimit::Cooling)
        } else {
            None
        }
    }

    /// What is delivered where a demand asks for this power, W, below 0 where it cools.
    pub fn delivered(&self, power: f64) -> f64 {
        match self.held(power) {
            Some(HeldLimit::Heating) => self.heating,
            Some(HeldLimit::Cooling) => -self.cooling,
            None => power,
        }
    }
}

/// Equal where both limits are the same bits, as two entries of a book are.
impl PartialEq for Limits {
    fn eq(&self, other: &Self) -> bool {
        let bits = |limits: &Self| [limits.heating, limits.cooling].map(f64::to_bits);
        bits(self) == bits(other)
    }
}

/// The limit that held in an hour: its demand asked for more.
#[derive(Clone, Copy, Debug, PartialEq, Eq)]
pub enum HeldLimit {
    /// That of heating.
    Heating,
    /// That of cooling.
    Cooling,
}

#[cfg(test)]
mod tests {
    use super::*;

    #[test]
    fn a_limit_holds_where_more_is_asked_for() {
        let limits = Limits { heating: 600.0, cooling: 300.0 };
        for (power, held, delivered) in [
            (0.0, None, 0.0),
            (600.0, None, 600.0),
            (600.0_f64.next_up(), Some(HeldLimit::Heating), 600.0),
            (-300.0, None, -300.0),
            ((-300.0_f64).next_down(), Some(HeldLimit::Cooling), -300.0),
        ] {
            assert_eq!((limits.held(power), limits.delivered(power)), (held, delivered), "{power}");
        }
    }

    #[test]
    fn a_cooling_limit_of_0_leaves_a_negative_zero() {
        let none = Limits { heating: 0.0, cooling: 0.0 };
        assert_eq!(none.delivered(-5.0).to_bits(), (-0.0_f64).to_bits());
        assert_eq!(none.delivered(5.0).to_bits(), 0.0_f64.to_bits());
        // A power of 0 is beyond no limit and keeps its sign.
        assert_eq!(none.delivered(-0.0).to_bits(), (-0.0_f64).to_bits());
        assert_eq!((none.held(0.0), none.held(-0.0)), (None, None));
    }

    #[test]
    fn the_other_limit_is_the_greatest() {
        assert_eq!(Limits::of_heating(6.0), Limits { heating: 6.0, cooling: 1e7 });
        assert_eq!(Limits::of_cooling(6.0), Limits { heating: 1e7, cooling: 6.0 });
        assert_ne!(Limits::of_heating(0.0), Limits::of_heating(-0.0));
    }
}
