//! A bar that shows how far a run is, on a terminal only.
use std::io::{self, IsTerminal, Write};
use std::time::{Duration, Instant};

const WIDTH: usize = 40;
const BETWEEN: Duration = Duration::from_millis(50);

pub struct Progress {
    total: usize,
    shown: bool,
    last: Option<Instant>,
}

impl Progress {
    pub fn new(total: usize) -> Self {
        Self { total, shown: io::stderr().is_terminal(), last: None }
    }

    /// Shows that so many hours are done, with a word on where the year is.
    pub fn at(&mut self, done: usize, place: &str) {
        let due = self.last.is_none_or(|last| last.elapsed() >= BETWEEN) || done == self.total;
        if self.shown && due {
            self.last = Some(Instant::now());
            self.draw(done, place);
        }
    }

    fn draw(&self, done: usize, place: &str) {
        let part = done as f64 / self.total.max(1) as f64;
        let full = (part * WIDTH as f64) as usize;
        let bar = "█".repeat(full) + &"░".repeat(WIDTH - full);
        let percent = (part * 100.0) as u32;
        // A bar that cannot be drawn is no reason to stop.
        let _ = write!(io::stderr(), "\r{bar} {percent:3} %  {place}\x1b[K");
    }
}

/// The line of the bar is cleared before anything else is said.
impl Drop for Progress {
    fn drop(&mut self) {
        if self.last.is_some() {
            let _ = write!(io::stderr(), "\r\x1b[K");
        }
    }
}
