//! The C interface as it stands in `include/hem_zone.h`, where each function is described.
//!
//! Every pointer must be aligned and valid for the length beside it (121 for `temps`, 5 for `out`, 28
//! for `balance`, 3 for `weather`), what it leads to must be initialised, and what a call writes may overlap nothing else
//! that it is given. The calling thread rounds to nearest with denormal numbers, and has 48 KB of stack.

/// Length of every array of node temperatures (`HEM_TEMPS`).
pub const TEMPS: usize = 121;
/// Length of the array of a demand (`HEM_OUT`).
pub const OUT: usize = 5;
/// Length of the array of a heat balance (`HEM_BALANCE`).
pub const BALANCE: usize = 28;
/// Length of the array of a line of weather (`HEM_WEATHER`).
pub const WEATHER: usize = 3;
/// The most entries that a book holds (`HEM_ENTRIES`).
pub const ENTRIES: usize = 8784;
/// The newest version of entries (`HEM_NEWEST_ENTRY_VERSION`).
pub const NEWEST_ENTRY_VERSION: u64 = 3;
/// What is written in place of an hour where there is none (`HEM_NONE`).
pub const NONE: u64 = u64::MAX;

#[allow(missing_docs)]
unsafe extern "C" {
    pub fn hem_head(head: *const u8, head_len: usize) -> u32;

    pub fn hem_start_up(head: *const u8, head_len: usize, temps: *mut f64, nodes: *mut u64) -> u32;

    pub fn hem_demand(
        head: *const u8,
        head_len: usize,
        temps: *const f64,
        nodes: u64,
        cond: *const u8,
        cond_len: usize,
        out: *mut f64,
    ) -> u32;

    pub fn hem_why(
        head: *const u8,
        head_len: usize,
        temps: *const f64,
        nodes: u64,
        cond: *const u8,
        cond_len: usize,
        reason: *mut u64,
        load: *mut u64,
    ) -> u32;

    pub fn hem_update(
        head: *const u8,
        head_len: usize,
        temps: *mut f64,
        nodes: u64,
        cond: *const u8,
        cond_len: usize,
        gains: f64,
        fraction: f64,
        rate: f64,
        balance: *mut f64,
    ) -> u32;

    pub fn hem_hour_step(
        head: *const u8,
        head_len: usize,
        temps: *mut f64,
        nodes: u64,
        cond: *const u8,
        cond_len: usize,
        version: u64,
        heating_limit: f64,
        cooling_limit: f64,
        out: *mut f64,
        balance: *mut f64,
    ) -> u32;

    pub fn hem_operative(
        head: *const u8,
        head_len: usize,
        temps: *const f64,
        nodes: u64,
        operative: *mut f64,
    ) -> u32;

    pub fn hem_begin(
        head: *const u8,
        head_len: usize,
        buf: *mut u8,
        buf_len: usize,
        temps: *mut f64,
        nodes: *mut u64,
        count: *mut u64,
        used: *mut u64,
        last_version: *mut u64,
    ) -> u32;

    pub fn hem_append(
        head: *const u8,
        head_len: usize,
        buf: *mut u8,
        buf_len: usize,
        temps: *mut f64,
        nodes: *mut u64,
        count: *mut u64,
        used: *mut u64,
        last_version: *mut u64,
        cond: *const u8,
        cond_len: usize,
        version: u64,
        heating_limit: f64,
        cooling_limit: f64,
    ) -> u32;

    pub fn hem_take_up(
        bytes: *const u8,
        bytes_len: usize,
        temps: *mut f64,
        nodes: *mut u64,
        count: *mut u64,
        used: *mut u64,
        last_version: *mut u64,
    ) -> u32;

    pub fn hem_first_above(bytes: *const u8, bytes_len: usize, value: f64, hour: *mut u64) -> u32;

    pub fn hem_hours_within(
        bytes: *const u8,
        bytes_len: usize,
        lower: f64,
        upper: f64,
        hours: *mut u64,
    ) -> u32;

    pub fn hem_nearest_hour(bytes: *const u8, bytes_len: usize, value: f64, hour: *mut u64) -> u32;

    pub fn hem_convert(
        bytes: *const u8,
        bytes_len: usize,
        out: *mut u8,
        out_len: usize,
        count: *mut u64,
        used: *mut u64,
    ) -> u32;

    pub fn hem_weather(file: *const u8, file_len: usize, line: u64, weather: *mut f64) -> u32;
}
