//! The questions about a book, answered hour by hour from the temperatures that stand in it.
use hem_zone::Book;

/// The operative temperatures of a book: start-up's, then that of each hour.
pub struct Temperatures {
    pub start_up: f64,
    pub hours: Vec<f64>,
}

impl Temperatures {
    pub fn of(book: &Book) -> Self {
        let zone = book.zone();
        Self {
            start_up: zone.temp_operative(&zone.start_up().unwrap()).unwrap(),
            hours: book.entries().map(|entry| entry.temp_operative()).collect(),
        }
    }

    /// The temperature before an hour.
    pub fn before(&self, hour: usize) -> f64 {
        hour.checked_sub(1).map_or(self.start_up, |before| self.hours[before])
    }

    pub fn first_above(&self, value: f64) -> Option<usize> {
        (0..self.hours.len()).find(|hour| self.before(*hour) <= value && value < self.hours[*hour])
    }

    pub fn within(&self, lower: f64, upper: f64) -> usize {
        self.hours.iter().filter(|t| lower <= **t && **t <= upper).count()
    }

    pub fn nearest(&self, value: f64) -> Option<usize> {
        let distance = |hour: usize| (self.hours[hour] - value).abs();
        let least = (0..self.hours.len()).map(distance).fold(f64::INFINITY, f64::min);
        (0..self.hours.len()).find(|hour| distance(*hour) == least)
    }
}
