//! Calls of the C interface as a C program makes them, with nothing around that would be timed too.
use crate::houses;
use hem_zone::ffi::*;

/// An hour step's is version 1, whose hours are those of the original. It looks at no limits.
const VERSION: u64 = hem_zone::ENTRY_VERSION_1;
const UNUSED_LIMIT: f64 = 0.0;

/// In an entry, whose conditions begin behind its length and version: the rate code and the second of the two rates.
const RATE_CODE: usize = 5 + 96;
const SECOND_RATE: usize = 5 + 105;

/// Node temperatures.
#[derive(Clone)]
pub struct Temps {
    temps: [f64; TEMPS],
    nodes: u64,
}

/// What a book's calls hand on to each other.
#[derive(Clone)]
pub struct Held {
    temps: Temps,
    count: u64,
    pub used: u64,
    last_version: u64,
}

/// A house, its year, and the calls on them. A refusal ends the program.
pub struct Engine {
    head: Vec<u8>,
    hours: Vec<Vec<u8>>,
    entry_len: usize,
}

fn accepted(answer: u32) {
    assert_eq!(answer, 0, "refused with {}, index {}", answer & 255, answer >> 8);
}

impl Temps {
    fn new() -> Self {
        Self { temps: [0.0; TEMPS], nodes: 0 }
    }
}

impl Held {
    fn new() -> Self {
        Self { temps: Temps::new(), count: 0, used: 0, last_version: 0 }
    }
}

impl Engine {
    pub fn new(elements: usize, hours: usize, windows: bool) -> Self {
        let head = houses::house(elements).to_bytes();
        let hour = |h| houses::hour(h, elements, windows).to_bytes();
        let entry_len = 4 + 147 + 41 * elements + 8 * (5 * elements + 1);
        Self { head, hours: (0..hours).map(hour).collect(), entry_len }
    }

    pub fn hours(&self) -> &[Vec<u8>] {
        &self.hours
    }

    /// The head, then each hour.
    pub fn bytes(&self) -> Vec<u8> {
        [self.head.clone(), self.hours.concat()].concat()
    }

    pub fn start_up(&self) -> Temps {
        let mut t = Temps::new();
        // SAFETY: the head is valid for its length, the array has 121 floats.
        accepted(unsafe {
            hem_start_up(self.head.as_ptr(), self.head.len(), t.temps.as_mut_ptr(), &mut t.nodes)
        });
        t
    }

    /// Moves the temperatures on by an hour and gives its demand.
    pub fn hour_step(&self, t: &mut Temps, hour: &[u8]) -> [f64; OUT] {
        let (mut out, mut balance) = ([0.0; OUT], [0.0; BALANCE]);
        // SAFETY: byte strings are valid for their lengths, arrays have the interface's sizes.
        accepted(unsafe {
            hem_hour_step(
                self.head.as_ptr(),
                self.head.len(),
                t.temps.as_mut_ptr(),
                t.nodes,
                hour.as_ptr(),
                hour.len(),
                VERSION,
                UNUSED_LIMIT,
                UNUSED_LIMIT,
                out.as_mut_ptr(),
                balance.as_mut_ptr(),
            )
        });
        std::hint::black_box(&balance);
        out
    }

    /// The demand of an hour. The temperatures stay.
    pub fn demand(&self, t: &Temps, hour: &[u8]) -> [f64; OUT] {
        let mut out = [0.0; OUT];
        // SAFETY: as above.
        accepted(unsafe {
            hem_demand(
                self.head.as_ptr(),
                self.head.len(),
                t.temps.as_ptr(),
                t.nodes,
                hour.as_ptr(),
                hour.len(),
                out.as_mut_ptr(),
            )
        });
        out
    }

    /// Why that demand has its rate, and its load.
    pub fn why(&self, t: &Temps, hour: &[u8]) -> (u64, u64) {
        let (mut reason, mut load) = (0, 0);
        // SAFETY: as above.
        accepted(unsafe {
            hem_why(
                self.head.as_ptr(),
                self.head.len(),
                t.temps.as_ptr(),
                t.nodes,
                hour.as_ptr(),
                hour.len(),
                &mut reason,
                &mut load,
            )
        });
        (reason, load)
    }

    /// Reads the head and judges it.
    pub fn head(&self) {
        // SAFETY: the head is valid for its length.
        accepted(unsafe { hem_head(self.head.as_ptr(), self.head.len()) });
    }

    /// Moves the temperatures on by an hour with gains of 100 W, of which 0.4 is convective, and a rate of 0.5.
    pub fn update(&self, t: &mut Temps, hour: &[u8]) {
        let mut balance = [0.0; BALANCE];
        // SAFETY: as above.
        accepted(unsafe {
            hem_update(
                self.head.as_ptr(),
                self.head.len(),
                t.temps.as_mut_ptr(),
                t.nodes,
                hour.as_ptr(),
                hour.len(),
                100.0,
                0.4,
                0.5,
                balance.as_mut_ptr(),
            )
        });
        std::hint::black_box(&balance);
    }

    /// Room for the book of the whole year.
    pub fn buffer(&self) -> Vec<u8> {
        vec![0; self.head.len() + self.hours.len() * self.entry_len]
    }

    pub fn begin(&self, buffer: &mut [u8]) -> Held {
        let mut held = Held::new();
        // SAFETY: as above; the buffer is apart from the head.
        accepted(unsafe {
            hem_begin(
                self.head.as_ptr(),
                self.head.len(),
                buffer.as_mut_ptr(),
                buffer.len(),
                held.temps.temps.as_mut_ptr(),
                &mut held.temps.nodes,
                &mut held.count,
                &mut held.used,
                &mut held.last_version,
            )
        });
        held
    }

    /// Appends every hour of the year, by a version without limits, to a book that was begun.
    pub fn append_all(&self, version: u64, buffer: &mut [u8], mut held: Held) -> Held {
        for hour in &self.hours {
            // SAFETY: as above; the buffer is apart from head and hour.
            accepted(unsafe {
                hem_append(
                    self.head.as_ptr(),
                    self.head.len(),
                    buffer.as_mut_ptr(),
                    buffer.len(),
                    held.temps.temps.as_mut_ptr(),
                    &mut held.temps.nodes,
                    &mut held.count,
                    &mut held.used,
                    &mut held.last_version,
                    hour.as_ptr(),
                    hour.len(),
                    version,
                    UNUSED_LIMIT,
                    UNUSED_LIMIT,
                )
            });
        }
        held
    }

    /// The book of a year with one rate as it was stored before the fixed rate, code 0, was retired.
    pub fn with_fixed_rate(&self, mut book: Vec<u8>) -> Vec<u8> {
        for entry in book[self.head.len()..].chunks_exact_mut(self.entry_len) {
            entry[RATE_CODE] = 0;
            entry[SECOND_RATE..SECOND_RATE + 8].fill(0);
        }
        book
    }

    /// Takes a book up and gives the number of its entries.
    pub fn take_up(&self, bytes: &[u8]) -> u64 {
        let mut held = Held::new();
        // SAFETY: the bytes are valid for their length, the array has 121 floats.
        accepted(unsafe {
            hem_take_up(
                bytes.as_ptr(),
                bytes.len(),
                held.temps.temps.as_mut_ptr(),
                &mut held.temps.nodes,
                &mut held.count,
                &mut held.used,
                &mut held.last_version,
            )
        });
        held.count
    }

    /// Converts a book, and gives the number of its entries.
    pub fn convert(&self, bytes: &[u8], out: &mut [u8]) -> u64 {
        let (mut count, mut used) = (0, 0);
        // SAFETY: the bytes and the output are valid for their lengths, and apart.
        accepted(unsafe {
            hem_convert(
                bytes.as_ptr(),
                bytes.len(),
                out.as_mut_ptr(),
                out.len(),
                &mut count,
                &mut used,
            )
        });
        count
    }

    /// The first hour above a value, the hours within a band and the hour nearest to a value: each takes the book up.
    pub fn first_above(&self, bytes: &[u8], value: f64) -> u64 {
        let mut hour = 0;
        // SAFETY: the bytes are valid for their length.
        accepted(unsafe { hem_first_above(bytes.as_ptr(), bytes.len(), value, &mut hour) });
        hour
    }

    pub fn hours_within(&self, bytes: &[u8], lower: f64, upper: f64) -> u64 {
        let mut hours = 0;
        // SAFETY: the bytes are valid for their length.
        accepted(unsafe {
            hem_hours_within(bytes.as_ptr(), bytes.len(), lower, upper, &mut hours)
        });
        hours
    }

    pub fn nearest_hour(&self, bytes: &[u8], value: f64) -> u64 {
        let mut hour = 0;
        // SAFETY: the bytes are valid for their length.
        accepted(unsafe { hem_nearest_hour(bytes.as_ptr(), bytes.len(), value, &mut hour) });
        hour
    }
}
