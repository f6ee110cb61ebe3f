//! An hour by name, and the bytes of its conditions.
use crate::bytes::{f64_at, f64s_at, put_f64s};
use crate::refusal::Refusal;
use crate::zone::{State, Zone};
use std::borrow::Cow;

/// The ventilation setpoint that stands for no control: nothing reaches it.
pub const NO_CONTROL: f64 = 1.4e32;

/// What an hour brings to one element.
#[derive(Clone, Copy, Debug, PartialEq)]
pub struct ElementHour {
    /// Temperature on the outer side, °C.
    pub temp_ext: f64,
    /// Direct irradiance, W/m².
    pub i_sol_dir: f64,
    /// Diffuse irradiance, W/m².
    pub i_sol_dif: f64,
    /// Shading factor of the direct part, 0 to 1 (1 is unshaded).
    pub f_sh_dir: f64,
    /// Shading factor of the diffuse part.
    pub f_sh_dif: f64,
    /// Bit j, the least significant first, means that treatment j is open.
    pub open: u8,
}

impl ElementHour {
    /// Bytes that an element takes in the conditions of an hour.
    pub(crate) const SIZE: usize = 41;

    /// The five values before the open treatments, in the order of the bytes.
    pub(crate) fn values(&self) -> [f64; 5] {
        [self.temp_ext, self.i_sol_dir, self.i_sol_dif, self.f_sh_dir, self.f_sh_dif]
    }

    pub(crate) fn of_values(values: [f64; 5], open: u8) -> Self {
        let [temp_ext, i_sol_dir, i_sol_dif, f_sh_dir, f_sh_dif] = values;
        Self { temp_ext, i_sol_dir, i_sol_dif, f_sh_dir, f_sh_dif, open }
    }

    pub(crate) fn put(&self, bytes: &mut Vec<u8>) {
        put_f64s(bytes, &self.values());
        bytes.push(self.open);
    }

    pub(crate) fn read(bytes: &[u8]) -> Self {
        Self::of_values(std::array::from_fn(|j| f64_at(bytes, 8 * j)), bytes[40])
    }
}

/// The air change rates that an hour may have, per hour.
#[derive(Clone, Copy, Debug, PartialEq)]
pub enum AirChangesPerHour {
    /// One fixed rate. It is retired: only a book that holds such an hour already has it, for
    /// [`Book::take_up`](crate::Book::take_up) still takes it, and [`Zone::why`] answers for it. Demand, update,
    /// hour step and append refuse it with 8. [`AirChangesPerHour::one_rate`] is the same hour.
    Cooling {
        /// The rate.
        ach_cooling: f64,
    },
    /// Any rate between the required one and that of open windows.
    TargetAndWindowsOpen {
        /// The rate that ventilation requires.
        ach_target: f64,
        /// The rate with all windows open.
        ach_windows_open: f64,
    },
}

impl AirChangesPerHour {
    /// One rate and no choice: target and windows open are both this rate.
    pub fn one_rate(rate: f64) -> Self {
        Self::TargetAndWindowsOpen { ach_target: rate, ach_windows_open: rate }
    }

    /// A fixed rate as [`AirChangesPerHour::one_rate`], with the same bits; two rates as they are.
    pub fn rate_twice(self) -> Self {
        match self {
            Self::Cooling { ach_cooling } => Self::one_rate(ach_cooling),
            Self::TargetAndWindowsOpen { .. } => self,
        }
    }
}

/// The conditions of one hour.
#[derive(Clone, Debug, PartialEq)]
pub struct Conditions {
    /// Length, hours.
    pub delta_t_h: f64,
    /// External air temperature, °C.
    pub temp_ext_air: f64,
    /// Internal gains, W.
    pub gains_internal: f64,
    /// Directly transmitted solar gains, W.
    pub gains_solar: f64,
    /// Convective fraction of heating.
    pub frac_convective_heat: f64,
    /// Convective fraction of cooling.
    pub frac_convective_cool: f64,
    /// Heating setpoint, °C.
    pub temp_setpnt_heat: f64,
    /// Cooling setpoint, °C.
    pub temp_setpnt_cool: f64,
    /// Setpoint above which windows are opened, °C, or [`NO_CONTROL`].
    pub temp_setpnt_cool_vent: f64,
    /// Temperature of the supplied air, °C.
    pub avg_air_supply_temp: f64,
    /// Convective gains of heating or cooling that is on in any case, W.
    pub gains_heat_cool_convective: f64,
    /// Its radiative gains, W.
    pub gains_heat_cool_radiative: f64,
    /// Air change rates.
    pub ach: AirChangesPerHour,
    /// What the hour brings to each element, in the order of the head.
    pub elements: Vec<ElementHour>,
}

/// Bytes of the twelve floats, the rate code and the two rates.
pub(crate) const COMMON_SIZE: usize = 113;
/// Where the rate code stands.
pub(crate) const RATE_CODE: usize = 96;

impl Conditions {
    /// The twelve values before the rates, in the order of the bytes.
    pub(crate) fn values(&self) -> [f64; 12] {
        [
            self.delta_t_h,
            self.temp_ext_air,
            self.gains_internal,
            self.gains_solar,
            self.frac_convective_heat,
            self.frac_convective_cool,
            self.temp_setpnt_heat,
            self.temp_setpnt_cool,
            self.temp_setpnt_cool_vent,
            self.avg_air_supply_temp,
            self.gains_heat_cool_convective,
            self.gains_heat_cool_radiative,
        ]
    }

    pub(crate) fn of_values(
        values: [f64; 12],
        ach: AirChangesPerHour,
        elements: Vec<ElementHour>,
    ) -> Self {
        Self {
            delta_t_h: values[0],
            temp_ext_air: values[1],
            gains_internal: values[2],
            gains_solar: values[3],
            frac_convective_heat: values[4],
            frac_convective_cool: values[5],
            temp_setpnt_heat: values[6],
            temp_setpnt_cool: values[7],
            temp_setpnt_cool_vent: values[8],
            avg_air_supply_temp: values[9],
            gains_heat_cool_convective: values[10],
            gains_heat_cool_radiative: values[11],
            ach,
            elements,
        }
    }

    /// The conditions of these bytes for a zone, if the engine accepts them (refusals 7 to 11) where it says
    /// [why](Zone::why): a fixed rate too, which the other calls refuse. An hour that is refused for what it
    /// would lead to (12 to 14) has good conditions all the same.
    pub fn from_bytes(zone: &Zone, bytes: &[u8]) -> Result<Self, Refusal> {
        let some_state = State::new(&vec![0.0; zone.layout().nodes()]);
        match zone.why(&some_state, bytes) {
            Err(refusal) if !(12..=14).contains(&refusal.number()) => Err(refusal),
            _ => Ok(Self::of_accepted(bytes)),
        }
    }

    /// Whether the hour has one fixed rate, which only a book that holds it already, and
    /// [`Zone::why`], take.
    pub fn has_fixed_rate(&self) -> bool {
        matches!(self.ach, AirChangesPerHour::Cooling { .. })
    }

    /// The conditions with a fixed rate as target and as windows open, which every call takes: the same hour.
    /// Conditions with two rates are as they were.
    ///
    /// ```
    /// use hem_zone::{samples, AirChangesPerHour, Conditions, Reason, State, Zone};
    ///
    /// let zone = Zone::new(&samples::house_p())?;
    /// let before = State::new(&[20.0; 3]);
    /// let ach = AirChangesPerHour::Cooling { ach_cooling: 0.5 };
    /// let fixed = Conditions { ach, ..samples::hour_p(21.0, 24.0) };
    /// assert!(fixed.has_fixed_rate());
    /// let refusal = zone.space_heat_cool_demand(&before, &fixed).unwrap_err();
    /// assert_eq!(refusal.reason(), Reason::ConditionsCode);
    ///
    /// let twice = fixed.with_rate_twice();
    /// assert_eq!(twice.ach, AirChangesPerHour::one_rate(0.5));
    /// assert_eq!(zone.space_heat_cool_demand(&before, &twice)?.ach_cooling, 0.5);
    /// # Ok::<(), hem_zone::Refusal>(())
    /// ```
    pub fn with_rate_twice(&self) -> Self {
        Self { ach: self.ach.rate_twice(), ..self.clone() }
    }

    /// The bytes of the conditions. Whether they are accepted is for the calls to say.
    pub fn to_bytes(&self) -> Vec<u8> {
        let mut bytes = Vec::with_capacity(COMMON_SIZE + ElementHour::SIZE * self.elements.len());
        put_f64s(&mut bytes, &self.values());
        let (code, rates) = match self.ach {
            AirChangesPerHour::Cooling { ach_cooling } => (0, [ach_cooling, 0.0]),
            AirChangesPerHour::TargetAndWindowsOpen { ach_target, ach_windows_open } => {
                (1, [ach_target, ach_windows_open])
            }
        };
        bytes.push(code);
        put_f64s(&mut bytes, &rates);
        for element in &self.elements {
            element.put(&mut bytes);
        }
        bytes
    }

    /// The conditions of bytes that the engine accepted, as an entry of a [`Book`](crate::Book) holds them.
    pub(crate) fn of_accepted(bytes: &[u8]) -> Self {
        let ach = match bytes[RATE_CODE] {
            0 => AirChangesPerHour::Cooling { ach_cooling: f64_at(bytes, 97) },
            _ => AirChangesPerHour::TargetAndWindowsOpen {
                ach_target: f64_at(bytes, 97),
                ach_windows_open: f64_at(bytes, 105),
            },
        };
        let values = f64s_at(bytes, 0, 12);
        let elements = bytes[COMMON_SIZE..].chunks_exact(ElementHour::SIZE);
        Self::of_values(
            std::array::from_fn(|j| values[j]),
            ach,
            elements.map(ElementHour::read).collect(),
        )
    }
}

const FIRST: usize = RATE_CODE + 1;
const SECOND: usize = FIRST + 8;

/// The fixed rate of conditions in bytes: of code 0 with a second rate of all zero bits. `None` of any others.
///
/// ```
/// use hem_zone::{bytes_with_rate_twice, fixed_rate, samples, AirChangesPerHour, Conditions};
///
/// let ach = AirChangesPerHour::Cooling { ach_cooling: 0.5 };
/// let fixed = Conditions { ach, ..samples::hour_p(21.0, 24.0) };
/// let bytes = fixed.to_bytes();
/// assert_eq!(fixed_rate(&bytes), Some(0.5));
/// assert_eq!(*bytes_with_rate_twice(&bytes), *fixed.with_rate_twice().to_bytes());
/// assert_eq!((fixed_rate(&bytes[..112]), fixed_rate(&[])), (None, None));
/// ```
pub fn fixed_rate(conditions: &[u8]) -> Option<f64> {
    let rates = conditions.get(RATE_CODE..COMMON_SIZE)?;
    (rates[0] == 0 && rates[9..] == [0; 8]).then(|| f64_at(rates, 1))
}

/// Conditions in bytes with a fixed rate as code 1 has them, with the rate twice
/// ([`Conditions::with_rate_twice`] in bytes). Others are as they were.
pub fn bytes_with_rate_twice(conditions: &[u8]) -> Cow<'_, [u8]> {
    if fixed_rate(conditions).is_none() {
        return conditions.into();
    }
    let mut twice = conditions.to_vec();
    twice[RATE_CODE] = 1;
    twice.copy_within(FIRST..SECOND, SECOND);
    twice.into()
}
