//! A house with plants of several sizes: its heating gives 0.3 of its heat to the air, its cooling 0.7, so
//! that shares tell.
#![allow(dead_code)] // Each file of tests uses a part of this.
use hem_zone::samples::{hour_p, house_p};
use hem_zone::{Basis, Conditions, Head};

pub fn house() -> Head {
    let mut head = Head { temp_setpnt_basis: Basis::Operative, ..house_p() };
    head.elements[0].h_ri = 5.13;
    head
}

/// An hour of this house, with something that is on in any case.
pub fn hour(heat: f64, cool: f64, on: f64) -> Conditions {
    Conditions {
        delta_t_h: 0.5,
        frac_convective_heat: 0.3,
        frac_convective_cool: 0.7,
        gains_heat_cool_convective: 0.75 * on,
        gains_heat_cool_radiative: 0.25 * on,
        ..hour_p(heat, cool)
    }
}

pub fn heated(on: f64) -> Conditions {
    hour(22.0, 24.0, on)
}

pub fn cooled(on: f64) -> Conditions {
    hour(15.0, 18.0, on)
}
