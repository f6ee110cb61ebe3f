//! A zone, its node temperatures and the calls on them.
use crate::explain::{sentence, Given, NamedVersion};
use crate::ffi;
use crate::float;
use crate::head::Head;
use crate::heat_balance::HeatBalance;
use crate::layout::Layout;
use crate::lent::{AsConditions, AsHead};
use crate::refusal::{Reason, Refusal};
use crate::versions::Rule;
use std::fmt;

/// The node temperatures of a zone, °C: element by element from the outer to the inner surface, then
/// the air.
#[derive(Clone)]
pub struct State {
    pub(crate) temps: [f64; ffi::TEMPS],
    pub(crate) nodes: u64,
}

impl State {
    /// A state of these temperatures. One of another number than the zone has nodes is refused by
    /// the calls, with 6. No zone has more than 121: of a longer list the first 121 are kept, and the
    /// number that it had.
    pub fn new(temps: &[f64]) -> Self {
        let mut state = Self { nodes: temps.len() as u64, ..Self::empty() };
        let held = temps.len().min(ffi::TEMPS);
        state.temps[..held].copy_from_slice(&temps[..held]);
        state
    }

    pub(crate) fn empty() -> Self {
        Self { temps: [0.0; ffi::TEMPS], nodes: 0 }
    }

    /// The temperatures.
    pub fn temps(&self) -> &[f64] {
        &self.temps[..(self.nodes as usize).min(ffi::TEMPS)]
    }

    /// The temperature of the air, which is the last node; NaN where that is not held, as in a state of
    /// no temperatures or of more than 121.
    pub fn temp_internal_air(&self) -> f64 {
        let air = (self.nodes as usize).checked_sub(1);
        air.and_then(|node| self.temps.get(node)).copied().unwrap_or(f64::NAN)
    }
}

/// Equal where the temperatures are the same bits.
impl PartialEq for State {
    fn eq(&self, other: &Self) -> bool {
        let bits = |state: &Self| state.temps().iter().map(|t| t.to_bits()).collect::<Vec<_>>();
        self.nodes == other.nodes && bits(self) == bits(other)
    }
}

impl fmt::Debug for State {
    fn fmt(&self, f: &mut fmt::Formatter) -> fmt::Result {
        f.debug_tuple("State").field(&self.temps()).finish()
    }
}

/// What an hour asks for.
#[derive(Clone, Copy, Debug, PartialEq)]
pub struct Demand {
    /// Heating, kWh, at least 0.
    pub space_heat_demand: f64,
    /// Cooling, kWh, at most 0.
    pub space_cool_demand: f64,
    /// The chosen air change rate, per hour.
    pub ach_cooling: f64,
    /// The air change rate that would bring the zone to its heating setpoint, where there is one.
    pub ach_to_trigger_heating: Option<f64>,
}

impl Demand {
    /// The power that would meet the demand in an hour of this length, W, below 0 where it cools: what is
    /// delivered where no limit holds.
    pub fn power(&self, delta_t_h: f64) -> f64 {
        (self.space_heat_demand + self.space_cool_demand) * 1000.0 / delta_t_h
    }

    fn of_values(out: &[f64; ffi::OUT]) -> Self {
        Self {
            space_heat_demand: out[0],
            space_cool_demand: out[1],
            ach_cooling: out[2],
            ach_to_trigger_heating: (out[3] != 0.0).then_some(out[4]),
        }
    }
}

/// A zone: the bytes of a head that the engine accepted.
#[derive(Clone, Debug, PartialEq)]
pub struct Zone {
    head: Vec<u8>,
    layout: Layout,
}

/// The refusal of a call, or nothing where it was accepted.
pub(crate) fn judge(answer: u32, given: &Given) -> Result<(), Refusal> {
    match answer {
        0 => Ok(()),
        _ => {
            let of_number = |number, index| sentence(Reason::of_number(number), index, given);
            Err(Refusal::new(answer, of_number))
        }
    }
}

impl Zone {
    /// The zone of a head, given as a [`Head`] or in bytes. Bytes after the head's own length are not
    /// kept.
    pub fn from_head(head: &(impl AsHead + ?Sized)) -> Result<Self, Refusal> {
        Self::of_bytes(&head.head_bytes())
    }

    fn of_bytes(bytes: &[u8]) -> Result<Self, Refusal> {
        float::must_be_standard()?;
        // SAFETY: `bytes` is valid for its length and only read.
        let answer = unsafe { ffi::hem_head(bytes.as_ptr(), bytes.len()) };
        judge(answer, &Given { head: bytes, ..Given::default() })?;
        let layout = Layout::of_accepted(bytes);
        Ok(Self { head: bytes[..layout.head_len()].to_vec(), layout })
    }

    /// The zone that a [`Head`] describes.
    pub fn new(head: &Head) -> Result<Self, Refusal> {
        Self::from_head(head)
    }

    /// The bytes of the head.
    pub fn head(&self) -> &[u8] {
        &self.head
    }

    /// The sizes that the head fixes.
    pub fn layout(&self) -> &Layout {
        &self.layout
    }

    /// The settled node temperatures before the first hour.
    pub fn start_up(&self) -> Result<State, Refusal> {
        float::must_be_standard()?;
        let mut state = State::empty();
        // SAFETY: the head is valid for its length, the state's array has 121 floats.
        let answer = unsafe {
            ffi::hem_start_up(
                self.head.as_ptr(),
                self.head.len(),
                state.temps.as_mut_ptr(),
                &mut state.nodes,
            )
        };
        judge(answer, &Given { head: &self.head, ..Given::default() })?;
        Ok(state)
    }

    pub(crate) fn given<'a>(&'a self, state: &'a State, conditions: &'a [u8]) -> Given<'a> {
        Given {
            head: &self.head,
            temps: &state.temps,
            nodes: state.nodes as usize,
            conditions,
            ..Given::default()
        }
    }

    /// The demand of an hour, from the node temperatures before it and its conditions, given as
    /// [`Conditions`](crate::Conditions) or in bytes.
    pub fn space_heat_cool_demand(
        &self,
        before: &State,
        conditions: &(impl AsConditions + ?Sized),
    ) -> Result<Demand, Refusal> {
        float::must_be_standard()?;
        let conditions = &*conditions.conditions_bytes();
        let mut out = [0.0; ffi::OUT];
        // SAFETY: byte strings are valid for their lengths, the arrays have 121 and 5 floats, and
        // what is written is borrowed from nowhere else.
        let answer = unsafe {
            ffi::hem_demand(
                self.head.as_ptr(),
                self.head.len(),
                before.temps.as_ptr(),
                before.nodes,
                conditions.as_ptr(),
                conditions.len(),
                out.as_mut_ptr(),
            )
        };
        judge(answer, &self.given(before, conditions))?;
        Ok(Demand::of_values(&out))
    }

    /// The state after an hour in which heating or cooling gives `gains_heat_cool` watts, the share
    /// `frac_convective` of it to the air, at `ach` air changes per hour.
    pub fn update_temperatures(
        &self,
        before: &State,
        conditions: &(impl AsConditions + ?Sized),
        gains_heat_cool: f64,
        frac_convective: f64,
        ach: f64,
    ) -> Result<(State, HeatBalance), Refusal> {
        float::must_be_standard()?;
        let conditions = &*conditions.conditions_bytes();
        let mut after = before.clone();
        let mut balance = [0.0; ffi::BALANCE];
        // SAFETY: byte strings are valid for their lengths, the arrays have 121 and 28 floats, and
        // what is written is borrowed from nowhere else.
        let answer = unsafe {
            ffi::hem_update(
                self.head.as_ptr(),
                self.head.len(),
                after.temps.as_mut_ptr(),
                after.nodes,
                conditions.as_ptr(),
                conditions.len(),
                gains_heat_cool,
                frac_convective,
                ach,
                balance.as_mut_ptr(),
            )
        };
        let own = Some([gains_heat_cool, frac_convective, ach]);
        judge(answer, &Given { own, ..self.given(before, conditions) })?;
        Ok((after, HeatBalance::of_values(&balance)))
    }

    /// One hour: its demand, the state after the demand was met, and the heat balance. The demand is met
    /// by a [`Rule`]: an entry version, as [`ENTRY_VERSION_2`](crate::ENTRY_VERSION_2), or the
    /// [`Limits`](crate::Limits) of a plant, as far as these let it. A version that no hour has is refused
    /// with 18, a limit out of range with 19.
    pub fn hour_step(
        &self,
        before: &State,
        conditions: &(impl AsConditions + ?Sized),
        rule: impl Into<Rule>,
    ) -> Result<(State, Demand, HeatBalance), Refusal> {
        float::must_be_standard()?;
        let rule = rule.into();
        let (version, limits) = (rule.version(), rule.handed());
        let conditions = &*conditions.conditions_bytes();
        let mut after = before.clone();
        let mut out = [0.0; ffi::OUT];
        let mut balance = [0.0; ffi::BALANCE];
        // SAFETY: byte strings are valid for their lengths, the arrays have 121, 5 and 28 floats,
        // and what is written is borrowed from nowhere else.
        let answer = unsafe {
            ffi::hem_hour_step(
                self.head.as_ptr(),
                self.head.len(),
                after.temps.as_mut_ptr(),
                after.nodes,
                conditions.as_ptr(),
                conditions.len(),
                version,
                limits.heating,
                limits.cooling,
                out.as_mut_ptr(),
                balance.as_mut_ptr(),
            )
        };
        let version = Some(NamedVersion { version, before: None });
        let limits = Some(limits);
        judge(answer, &Given { version, limits, ..self.given(before, conditions) })?;
        Ok((after, Demand::of_values(&out), HeatBalance::of_values(&balance)))
    }

    /// Operative temperature of a state, °C (ISO 52016-1, 6.5.5.3): the mean of the air and of the inner
    /// surfaces weighted by area.
    pub fn temp_operative(&self, state: &State) -> Result<f64, Refusal> {
        float::must_be_standard()?;
        let mut operative = f64::NAN;
        // SAFETY: the head is valid for its length, the state's array has 121 floats, and the one that
        // is written is borrowed from nowhere else.
        let answer = unsafe {
            ffi::hem_operative(
                self.head.as_ptr(),
                self.head.len(),
                state.temps.as_ptr(),
                state.nodes,
                &mut operative,
            )
        };
        judge(answer, &self.given(state, &[]))?;
        Ok(operative)
    }
}
