//! Books of House P with the limits of a plant, and what is to be told of them, by the entries themselves.
use super::Folder;
use hem_zone::{Book, Entry};

pub const HEATING: f64 = 1500.0;
pub const COOLING: f64 = 250.5;
pub const BOTH: [&str; 2] = ["--heating-limit=1500", "--cooling-limit=250.5"];

/// House P with these hours and their book, by a run with these words.
pub fn with_limits(name: &str, year: &[u8], words: &[&str]) -> (Folder, Book) {
    let folder = Folder::with_house_p(name, 1);
    go_on(&folder, year, words);
    let book = Book::take_up(&folder.read("p.book")).unwrap();
    (folder, book)
}

/// A further run with these hours and words.
pub fn go_on(folder: &Folder, year: &[u8], words: &[&str]) {
    folder.write("p.year", year);
    folder.call(&[&Folder::RUN[..], words].concat()).done();
}

/// What the entry asks for, kWh and W, by the operations of Specification, Hour step.
pub fn asked(entry: &Entry) -> (f64, f64) {
    let demand = entry.demand();
    let kwh = demand.space_heat_demand + demand.space_cool_demand;
    (kwh, kwh * 1000.0 / entry.conditions().delta_t_h)
}

/// The figures of a limit: the entries in which it held, from 0, with their unmet kWh, in the order of the
/// book; what was asked for and what was delivered, kWh.
pub struct Expected {
    pub held: Vec<(usize, f64)>,
    pub asked: f64,
    pub delivered: f64,
}

impl Expected {
    pub fn unmet(&self) -> f64 {
        self.held.iter().map(|(_, unmet)| unmet).sum()
    }
}

/// `sign` is 1 for heating and -1 for cooling.
pub fn expected(book: &Book, limit: f64, sign: f64) -> Expected {
    let mut found = Expected { held: vec![], asked: 0.0, delivered: 0.0 };
    for (place, entry) in book.entries().enumerate() {
        let (kwh, power) = asked(&entry);
        let (kwh, power) = (sign * kwh, sign * power);
        let most = limit * entry.conditions().delta_t_h / 1000.0;
        found.asked += kwh.max(0.0);
        if power > limit {
            found.held.push((place, kwh - most));
            found.delivered += most;
        } else {
            found.delivered += kwh.max(0.0);
        }
    }
    found
}

/// When an entry of a book begins whose hours have this length.
pub fn date(place: usize, length: f64) -> String {
    let minutes = (place as f64 * length * 60.0) as usize;
    let (day, hour) = (minutes / 1440, minutes / 60 % 24);
    format!("{} Jan {hour:02}:{:02}", day + 1, minutes % 60)
}
