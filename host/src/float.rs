//! The floating-point environment of the calling thread. The engine's values are those of rounding to
//! nearest with denormal numbers; a program can have switched either off for its threads, and a library
//! built with `-ffast-math` does so unasked. Then the same hour gives other values, so no call is made.
use crate::refusal::{Reason, Refusal};
use std::arch::asm;

/// MXCSR: operands that are denormal count as zero.
const DAZ: u32 = 1 << 6;
/// MXCSR: how to round, 0 to nearest, 1 down, 2 up, 3 towards zero.
const ROUNDING: u32 = 13;
/// MXCSR: results that are denormal become zero.
const FTZ: u32 = 1 << 15;

/// Refuses to go on where the engine would give other values than those promised.
pub(crate) fn must_be_standard() -> Result<(), Refusal> {
    let control = control();
    let towards = match (control >> ROUNDING) & 3 {
        0 if control & (DAZ | FTZ) == 0 => return Ok(()),
        0 => return Err(refused("takes denormal numbers for zero (FTZ or DAZ is on)")),
        1 => "down",
        2 => "up",
        _ => "towards zero",
    };
    Err(refused(&format!("rounds {towards}")))
}

fn refused(what: &str) -> Refusal {
    Refusal::new(Reason::FloatEnvironment as u32, |_, _| {
        format!(
            "the calling thread {what}; the engine needs rounding to nearest with denormal numbers, and is not called"
        )
    })
}

/// The control and status register of SSE, by which the engine calculates.
fn control() -> u32 {
    let mut control = 0u32;
    // SAFETY: the instruction writes four bytes to the address of `control` and nothing else.
    unsafe { asm!("stmxcsr [{}]", in(reg) &mut control, options(nostack, preserves_flags)) };
    control
}
