//! Convection between the air and the inner surfaces, by the direction in which heat flowed.
use crate::failure::Failure;
use hem_zone::{Book, HeatBalance, State};

/// The heat balance of each hour of a book. A book does not hold it: each hour is calculated again, from the
/// temperatures before it, of which start-up's are the first.
pub fn balances(book: &Book, start_up: &State) -> Result<Vec<HeatBalance>, Failure> {
    let mut before = start_up.clone();
    let hours = book.entries().map(|entry| {
        // A fixed rate is retired: with the rate twice it is the same hour.
        let conditions = entry.conditions().with_rate_twice();
        let step = book.zone().hour_step(&before, &conditions, entry.rule());
        let (after, _, balance) = step.map_err(|r| Failure::Refused(r.to_string()))?;
        before = after;
        Ok(balance)
    });
    hours.collect()
}

/// Heat from the air into the inner surfaces, less what they gave to the air, kWh.
#[derive(Clone, Copy, Default)]
pub struct Convection {
    pub total: f64,
    /// The terms of the total, each in one of these.
    pub horizontal: f64,
    pub upwards: f64,
    pub downwards: f64,
}

impl Convection {
    /// That of an hour of this length, by its heat balance, W.
    pub fn of(balance: &HeatBalance, length: f64) -> Self {
        let energy = |power: f64| power * length / 1000.0;
        let inner = &balance.internal_boundary;
        Self {
            total: energy(inner.fabric_int_air_convective),
            horizontal: energy(inner.fabric_int_air_convective_horizontal),
            upwards: energy(inner.fabric_int_air_convective_upwards),
            downwards: energy(inner.fabric_int_air_convective_downwards),
        }
    }

    /// Adds a part of another, from 0 to 1 of it.
    pub fn add(&mut self, other: &Self, share: f64) {
        self.total += share * other.total;
        self.horizontal += share * other.horizontal;
        self.upwards += share * other.upwards;
        self.downwards += share * other.downwards;
    }
}

/// A direction in which heat flows.
pub struct Direction {
    pub name: &'static str,
    /// The same at the beginning of a line.
    pub title: &'static str,
    pub heat: fn(&Convection) -> f64,
}

pub const DIRECTIONS: [Direction; 3] = [
    Direction { name: "horizontal", title: "Horizontal", heat: |c| c.horizontal },
    Direction { name: "upwards", title: "Upwards", heat: |c| c.upwards },
    Direction { name: "downwards", title: "Downwards", heat: |c| c.downwards },
];
