//! The functions of include/hem_zone.h as C calls them, and what is lent to them.
#![allow(dead_code)] // Each file of tests uses a part of this.
use hem_zone::ffi::*;
use hem_zone::samples::{hour_p, house_p};

/// What the arrays hold before a call, to see what it wrote.
pub const MARK: f64 = -12345.0;
pub const MARK_COUNT: u64 = 77;

pub struct Lent {
    pub temps: [f64; TEMPS],
    pub nodes: u64,
    pub count: u64,
    pub used: u64,
    pub last_version: u64,
    pub reason: u64,
    pub load: u64,
    pub out: [f64; OUT],
    pub balance: [f64; BALANCE],
    pub buf: Vec<u8>,
}

impl Lent {
    pub fn new(buf: usize) -> Self {
        Self {
            temps: [MARK; TEMPS],
            nodes: MARK_COUNT,
            count: MARK_COUNT,
            used: MARK_COUNT,
            last_version: MARK_COUNT,
            reason: MARK_COUNT,
            load: MARK_COUNT,
            out: [MARK; OUT],
            balance: [MARK; BALANCE],
            buf: vec![0xA5; buf],
        }
    }

    /// A state of House P: three nodes at 20 °C.
    pub fn at_twenty(buf: usize) -> Self {
        let mut lent = Self::new(buf);
        lent.temps[..3].fill(20.0);
        lent.nodes = 3;
        lent
    }

    pub fn seen(&self) -> (Vec<u64>, [u64; 6], Vec<u64>, Vec<u8>) {
        let bits = |values: &[f64]| values.iter().map(|v| v.to_bits()).collect::<Vec<_>>();
        let results = [&self.out[..], &self.balance[..]].concat();
        let held = [self.nodes, self.count, self.used, self.last_version, self.reason, self.load];
        (bits(&self.temps), held, bits(&results), self.buf.clone())
    }
}

/// Calls with `lent`, which must be refused with this answer and have written nothing.
#[track_caller]
pub fn refused(mut lent: Lent, answer: u32, call: impl FnOnce(&mut Lent) -> u32) {
    let before = lent.seen();
    assert_eq!(call(&mut lent), answer);
    assert!(lent.seen() == before, "a refused call wrote something");
}

pub fn p() -> Vec<u8> {
    house_p().to_bytes()
}

pub fn hour(heat: f64, cool: f64) -> Vec<u8> {
    hour_p(heat, cool).to_bytes()
}

pub fn start_up(head: &[u8], lent: &mut Lent) -> u32 {
    unsafe { hem_start_up(head.as_ptr(), head.len(), lent.temps.as_mut_ptr(), &mut lent.nodes) }
}

pub fn demand(head: &[u8], cond: &[u8], lent: &mut Lent) -> u32 {
    unsafe {
        hem_demand(
            head.as_ptr(),
            head.len(),
            lent.temps.as_ptr(),
            lent.nodes,
            cond.as_ptr(),
            cond.len(),
            lent.out.as_mut_ptr(),
        )
    }
}

pub fn why(head: &[u8], cond: &[u8], lent: &mut Lent) -> u32 {
    unsafe {
        hem_why(
            head.as_ptr(),
            head.len(),
            lent.temps.as_ptr(),
            lent.nodes,
            cond.as_ptr(),
            cond.len(),
            &mut lent.reason,
            &mut lent.load,
        )
    }
}

pub fn update(head: &[u8], cond: &[u8], own: [f64; 3], lent: &mut Lent) -> u32 {
    unsafe {
        hem_update(
            head.as_ptr(),
            head.len(),
            lent.temps.as_mut_ptr(),
            lent.nodes,
            cond.as_ptr(),
            cond.len(),
            own[0],
            own[1],
            own[2],
            lent.balance.as_mut_ptr(),
        )
    }
}

/// What is handed over for limits where a version looks at none.
pub const NO_LIMITS: [f64; 2] = [f64::NAN, f64::NEG_INFINITY];

pub fn hour_step(head: &[u8], cond: &[u8], version: u64, lent: &mut Lent) -> u32 {
    limited_step(head, cond, version, NO_LIMITS, lent)
}

pub fn limited_step(
    head: &[u8],
    cond: &[u8],
    version: u64,
    limits: [f64; 2],
    lent: &mut Lent,
) -> u32 {
    unsafe {
        hem_hour_step(
            head.as_ptr(),
            head.len(),
            lent.temps.as_mut_ptr(),
            lent.nodes,
            cond.as_ptr(),
            cond.len(),
            version,
            limits[0],
            limits[1],
            lent.out.as_mut_ptr(),
            lent.balance.as_mut_ptr(),
        )
    }
}

pub fn operative(head: &[u8], lent: &mut Lent) -> u32 {
    unsafe {
        hem_operative(
            head.as_ptr(),
            head.len(),
            lent.temps.as_ptr(),
            lent.nodes,
            lent.out.as_mut_ptr(),
        )
    }
}

pub fn begin(head: &[u8], lent: &mut Lent) -> u32 {
    unsafe {
        hem_begin(
            head.as_ptr(),
            head.len(),
            lent.buf.as_mut_ptr(),
            lent.buf.len(),
            lent.temps.as_mut_ptr(),
            &mut lent.nodes,
            &mut lent.count,
            &mut lent.used,
            &mut lent.last_version,
        )
    }
}

pub fn append(head: &[u8], cond: &[u8], version: u64, lent: &mut Lent) -> u32 {
    limited_append(head, cond, version, NO_LIMITS, lent)
}

pub fn limited_append(
    head: &[u8],
    cond: &[u8],
    version: u64,
    limits: [f64; 2],
    lent: &mut Lent,
) -> u32 {
    unsafe {
        hem_append(
            head.as_ptr(),
            head.len(),
            lent.buf.as_mut_ptr(),
            lent.buf.len(),
            lent.temps.as_mut_ptr(),
            &mut lent.nodes,
            &mut lent.count,
            &mut lent.used,
            &mut lent.last_version,
            cond.as_ptr(),
            cond.len(),
            version,
            limits[0],
            limits[1],
        )
    }
}

/// A question about a book: what it answers, and what stands in the place of the hour after it.
pub fn first_above(bytes: &[u8], value: f64) -> (u32, u64) {
    let mut hour = MARK_COUNT;
    let answer = unsafe { hem_first_above(bytes.as_ptr(), bytes.len(), value, &mut hour) };
    (answer, hour)
}

pub fn hours_within(bytes: &[u8], lower: f64, upper: f64) -> (u32, u64) {
    let mut hours = MARK_COUNT;
    let answer = unsafe { hem_hours_within(bytes.as_ptr(), bytes.len(), lower, upper, &mut hours) };
    (answer, hours)
}

pub fn nearest_hour(bytes: &[u8], value: f64) -> (u32, u64) {
    let mut hour = MARK_COUNT;
    let answer = unsafe { hem_nearest_hour(bytes.as_ptr(), bytes.len(), value, &mut hour) };
    (answer, hour)
}

/// The weather of a line of a file: what is answered, and what stands in its array after it. The places before and
/// behind the array stay as they are.
#[track_caller]
pub fn weather(file: &[u8], line: u64) -> (u32, [f64; WEATHER]) {
    let mut places = [MARK; WEATHER + 2];
    let array = places[1..].as_mut_ptr();
    let answer = unsafe { hem_weather(file.as_ptr(), file.len(), line, array) };
    let [before, values @ .., behind] = places;
    assert_eq!([before, behind], [MARK; 2], "more was written than the array");
    (answer, values)
}

/// A book converted to `lent.buf`.
pub fn convert(bytes: &[u8], lent: &mut Lent) -> u32 {
    unsafe {
        hem_convert(
            bytes.as_ptr(),
            bytes.len(),
            lent.buf.as_mut_ptr(),
            lent.buf.len(),
            &mut lent.count,
            &mut lent.used,
        )
    }
}

pub fn take_up(bytes: &[u8], lent: &mut Lent) -> u32 {
    unsafe {
        hem_take_up(
            bytes.as_ptr(),
            bytes.len(),
            lent.temps.as_mut_ptr(),
            &mut lent.nodes,
            &mut lent.count,
            &mut lent.used,
            &mut lent.last_version,
        )
    }
}
