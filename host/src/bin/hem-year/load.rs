//! The two loads of a house: how heating and cooling are told.
use crate::figures::HourFigures;
use crate::sums::{Short, Sums};
use hem_zone::HeldLimit;

pub struct Load {
    pub name: &'static str,
    /// The same at the beginning of a line.
    pub title: &'static str,
    /// The limit that it may meet.
    pub side: HeldLimit,
    pub power: fn(&HourFigures) -> f64,
    pub setpoint: fn(&HourFigures) -> f64,
    /// What was asked for, kWh, and for how long, hours.
    pub asked: fn(&Sums) -> (f64, f64),
    /// What its limit left unmet, and for how long it held.
    pub short: fn(&Sums) -> &Short,
    /// Which end of the temperatures is told of hours in which its limit held.
    pub worst: &'static str,
    /// Whether the setpoint has just changed so that there is more to do.
    pub after_setback: fn(&HourFigures) -> bool,
    pub word: &'static str,
    pub explained: &'static str,
}

pub const HEATING: Load = Load {
    name: "heating",
    title: "Heating",
    side: HeldLimit::Heating,
    power: HourFigures::heating_power,
    setpoint: |hour| hour.setpoint_heat,
    asked: |sums| (sums.heating, sums.heated),
    short: |sums| &sums.heating_short,
    worst: "lowest",
    after_setback: |hour| hour.warm_up,
    word: "warm-up",
    explained: "after a setback: the setpoint is higher than in the hour before",
};

pub const COOLING: Load = Load {
    name: "cooling",
    title: "Cooling",
    side: HeldLimit::Cooling,
    power: HourFigures::cooling_power,
    setpoint: |hour| hour.setpoint_cool,
    asked: |sums| (sums.cooling, sums.cooled),
    short: |sums| &sums.cooling_short,
    worst: "highest",
    after_setback: |hour| hour.cool_down,
    word: "cool-down",
    explained: "after a setback: the setpoint is lower than in the hour before",
};

impl Load {
    /// What was delivered, kWh.
    pub fn delivered(&self, sums: &Sums) -> f64 {
        (self.asked)(sums).0 - (self.short)(sums).unmet
    }

    /// Whether its limit held in any hour.
    pub fn was_short(&self, sums: &Sums) -> bool {
        (self.short)(sums).held > 0.0
    }
}
