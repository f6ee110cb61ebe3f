//! The days of a book, for a drawing: what lies in each by time, however long the hours are.
use crate::figures::HourFigures;
use crate::sums::Sums;

/// The most parts that a drawing shows next to each other: the days of a leap year.
const MOST: usize = 366;

/// Up to so many days a drawing names each day, above it the months.
pub const DAYS_NAMED: usize = 62;
pub const COMMON_YEAR: usize = 365;

/// The parts of the time that a book covers: single days, or some days together where there are more
/// than a drawing shows.
pub struct Days {
    /// How many days a part has.
    pub together: usize,
    /// The sums of each part, from the first day on.
    pub parts: Vec<Sums>,
}

/// Demand of a day, kWh.
pub struct Demand {
    pub heating: f64,
    pub cooling: f64,
}

impl Days {
    pub fn of(hours: &[HourFigures]) -> Self {
        let days = count(hours);
        let together = days.div_ceil(MOST).max(1);
        let span = 24.0 * together as f64;
        let mut parts: Vec<Sums> = (0..days.div_ceil(together)).map(|_| Sums::default()).collect();
        for hour in hours {
            // A hair less and more, since beginnings are rounded sums.
            let first = ((hour.start - 1e-6).max(0.0) / span) as usize;
            let last = (((hour.end() + 1e-6) / span) as usize).min(parts.len().saturating_sub(1));
            for (place, part) in parts.iter_mut().enumerate().take(last + 1).skip(first) {
                let start = place as f64 * span;
                part.add(hour, hour.share_in(&(start..start + span)));
            }
        }
        Self { together, parts }
    }

    /// The demand of a day: the whole of a single one, or the mean of some days, of which the last may
    /// not be held to their end.
    pub fn a_day(&self, part: &Sums) -> Demand {
        let days = if self.together == 1 { 1.0 } else { part.length / 24.0 };
        Demand { heating: part.heating / days, cooling: part.cooling / days }
    }

    /// Parts that hours lie in, each with the day that it begins with.
    pub fn held(&self) -> impl Iterator<Item = (f64, &Sums)> {
        let days = self.together as f64;
        let numbered = self.parts.iter().enumerate();
        numbered.filter(|(_, s)| s.length > 0.0).map(move |(place, s)| (place as f64 * days, s))
    }
}

/// How many days a drawing has room for: the whole year, or only those held where they are few.
pub fn shown(hours: &[HourFigures]) -> usize {
    match count(hours).max(1) {
        held if held <= DAYS_NAMED => held,
        held => held.max(COMMON_YEAR),
    }
}

/// How many days the hours reach into.
pub fn count(hours: &[HourFigures]) -> usize {
    let end = hours.last().map_or(0.0, HourFigures::end);
    (end / 24.0 - 1e-6).ceil().max(0.0) as usize
}
