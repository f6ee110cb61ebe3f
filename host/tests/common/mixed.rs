//! Books by chance: of rising versions and with plants, whose hours have one rate or two, zeros of either sign among
//! them; and the same books with the fixed rate in some of the hours that have one rate.
#![allow(dead_code)] // Each file of tests uses a part of this.
use crate::fixed_rate::{with_a_twin, with_fixed_rates};
use crate::generated::Chance;
use crate::softened::{soft_head, soft_hour};
use hem_zone::*;

fn windows(ach_target: f64, ach_windows_open: f64) -> AirChangesPerHour {
    AirChangesPerHour::TargetAndWindowsOpen { ach_target, ach_windows_open }
}

/// One rate, two equal ones that are not the same bits, or two that differ.
fn rates(chance: &mut Chance) -> AirChangesPerHour {
    let (low, high) = (chance.number(0.0, 1.0), chance.number(1.0, 1000.0));
    match chance.below(8) {
        0 => AirChangesPerHour::one_rate(chance.one_of(&[0.0, -0.0, 1000.0, 5e-324])),
        1 | 2 => AirChangesPerHour::one_rate(low),
        3 => AirChangesPerHour::one_rate(high),
        4 => chance.one_of(&[windows(0.0, -0.0), windows(-0.0, 0.0)]),
        5 => windows(high, low),
        _ => windows(low, high.min(6.0)),
    }
}

/// A head and hours of it, three of four with values such as houses have.
pub fn house(chance: &mut Chance, count: usize) -> (Head, Vec<Conditions>) {
    let mut head = chance.head();
    let mut hours = chance.hours(&head, count);
    if chance.below(4) > 0 {
        soft_head(&mut head, chance);
        hours.iter_mut().for_each(|hour| soft_hour(hour, chance));
    }
    hours.iter_mut().for_each(|hour| hour.ach = rates(chance));
    (head, hours)
}

/// The rule of a version, with limits that often hold.
pub fn rule(chance: &mut Chance, version: u64) -> Rule {
    let mut limit = |most: f64| chance.one_of(&[0.0, -0.0, 1.0, 300.0, most]);
    Rule::new(version, Limits { heating: limit(1e7), cooling: limit(1e7) })
}

/// A book by chance.
pub struct Mixed {
    /// As it is appended today.
    pub book: Book,
    /// Its bytes with the fixed rate in some hours.
    pub old: Vec<u8>,
    /// These hours.
    pub fixed: Vec<usize>,
}

impl Mixed {
    /// A book whose versions begin with this one or a later one, of the hours that are not refused.
    pub fn new(chance: &mut Chance, least: u64, count: usize) -> Option<Self> {
        let (head, hours) = house(chance, count);
        let mut book = Book::begin(&head).ok()?;
        let mut version = least;
        for hour in hours {
            version = version.max(chance.one_of(&[least, least, 2, 3]));
            let _ = book.append(&hour, rule(chance, version));
        }
        let mut fixed = with_a_twin(&book);
        let share = 1 + chance.below(3);
        fixed.retain(|_| chance.below(share) == 0);
        let old = with_fixed_rates(&book, fixed.iter().copied());
        Some(Self { book, old, fixed })
    }
}
