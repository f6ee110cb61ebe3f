//! Dates of a common year of 365 days that begins on 1 January at 00:00.

const MONTHS: [(&str, u32); 12] = [
    ("Jan", 31),
    ("Feb", 28),
    ("Mar", 31),
    ("Apr", 30),
    ("May", 31),
    ("Jun", 30),
    ("Jul", 31),
    ("Aug", 31),
    ("Sep", 30),
    ("Oct", 31),
    ("Nov", 30),
    ("Dec", 31),
];

const DAYS: u64 = 365;
/// The year that tables write: conditions have none. It is a common year that begins on a Monday.
const FIRST_YEAR: u64 = 2001;

/// The name of the hour at a place (from 0) that begins at a time: its number from 1, and its date.
pub fn hour_name(place: usize, start: f64) -> String {
    format!("hour {} ({})", place + 1, Moment(start).date().trim())
}

/// A moment, by the hours since the year began.
#[derive(Clone, Copy, Debug, PartialEq)]
pub struct Moment(pub f64);

/// A moment as a clock shows it.
struct Clock {
    day: u64,
    hour: u64,
    minute: u64,
    second: u64,
    millisecond: u64,
}

impl Moment {
    /// Whole milliseconds, so that sums of parts of an hour do not show their rounding.
    fn milliseconds(self) -> u64 {
        (self.0 * 3_600_000.0).round() as u64
    }

    fn clock(self) -> Clock {
        let all = self.milliseconds();
        Clock {
            day: all / 86_400_000,
            hour: all / 3_600_000 % 24,
            minute: all / 60_000 % 60,
            second: all / 1000 % 60,
            millisecond: all % 1000,
        }
    }

    /// As `12 Jan 07:00`, with seconds where they are not 0; past the end of the year as
    /// `day 366 07:00`.
    pub fn date(self) -> String {
        let clock = self.clock();
        let mut time = format!("{:02}:{:02}", clock.hour, clock.minute);
        time += &seconds(&clock);
        match month_and_day(clock.day) {
            Some((month, of_month)) => format!("{of_month:2} {} {time}", MONTHS[month].0),
            None => format!("day {} {time}", clock.day + 1),
        }
    }

    /// The end of a time: midnight is 24:00 of the day before.
    pub fn end_date(self) -> String {
        match self.milliseconds() {
            all if all > 0 && all % 86_400_000 == 0 => {
                Moment(self.0 - 24.0).date().replace("00:00", "24:00")
            }
            _ => self.date(),
        }
    }

    /// The name of its month; none past the end of the year.
    pub fn month(self) -> Option<&'static str> {
        month_and_day(self.clock().day).map(|(month, _)| MONTHS[month].0)
    }

    /// For a table, as `2001-01-12T07:00:00`, with milliseconds where they are not 0. Each year has
    /// 365 days.
    pub fn iso(self) -> String {
        let clock = self.clock();
        let (year, day) = (FIRST_YEAR + clock.day / DAYS, clock.day % DAYS);
        let (month, of_month) = month_and_day(day).unwrap_or((0, 1));
        let mut text = format!("{year}-{:02}-{of_month:02}", month + 1);
        text += &format!("T{:02}:{:02}:{:02}", clock.hour, clock.minute, clock.second);
        if clock.millisecond > 0 {
            text += &format!(".{:03}", clock.millisecond);
        }
        text
    }
}

fn seconds(clock: &Clock) -> String {
    match (clock.second, clock.millisecond) {
        (0, 0) => String::new(),
        (second, 0) => format!(":{second:02}"),
        (second, thousandth) => format!(":{second:02}.{thousandth:03}"),
    }
}

/// The day of a date without its time, as `12 Jan`; day from 0.
pub fn day_name(day: u64) -> String {
    match month_and_day(day) {
        Some((month, of_month)) => format!("{of_month} {}", MONTHS[month].0),
        None => format!("day {}", day + 1),
    }
}

/// Month from 0 and day of the month from 1, of a day of the year from 0.
fn month_and_day(day: u64) -> Option<(usize, u64)> {
    let mut left = day;
    for (month, (_, days)) in MONTHS.iter().enumerate() {
        if left < u64::from(*days) {
            return Some((month, left + 1));
        }
        left -= u64::from(*days);
    }
    None
}

/// The months with their first day, from 0, and the day after their last.
pub fn months() -> impl Iterator<Item = (&'static str, u32, u32)> {
    MONTHS.iter().scan(0, |first, (name, days)| {
        let start = *first;
        *first += days;
        Some((*name, start, *first))
    })
}

#[cfg(test)]
mod tests {
    use super::*;

    #[test]
    fn dates() {
        assert_eq!(Moment(0.0).date(), " 1 Jan 00:00");
        assert_eq!(Moment(31.0 * 24.0 + 7.5).date(), " 1 Feb 07:30");
        assert_eq!(Moment(8759.0).date(), "31 Dec 23:00");
        assert_eq!(Moment(8760.0).date(), "day 366 00:00");
        assert_eq!(Moment(8760.0).end_date(), "31 Dec 24:00");
        assert_eq!(Moment(8761.0).end_date(), "day 366 01:00");
        assert_eq!(Moment(0.1 + 0.2).date(), " 1 Jan 00:18");
        assert_eq!(Moment(0.001).date(), " 1 Jan 00:00:03.600");
        assert_eq!(Moment(0.01).date(), " 1 Jan 00:00:36");
        assert_eq!(
            [0.0, 743.999, 744.0].map(|h| Moment(h).month().unwrap()),
            ["Jan", "Jan", "Feb"]
        );
        // A beginning that is a rounded sum is in its own month.
        assert_eq!(Moment(744.0_f64.next_down()).month(), Some("Feb"));
        assert_eq!((Moment(8759.5).month(), Moment(8760.0).month()), (Some("Dec"), None));
        assert_eq!(months().last(), Some(("Dec", 334, 365)));
        assert_eq!((day_name(0), day_name(364)), ("1 Jan".into(), "31 Dec".into()));
        assert_eq!(hour_name(4000, 4000.0), "hour 4001 (16 Jun 16:00)");
    }

    #[test]
    fn iso_dates() {
        assert_eq!(Moment(0.0).iso(), "2001-01-01T00:00:00");
        assert_eq!(Moment(59.0 * 24.0 - 0.25).iso(), "2001-02-28T23:45:00");
        assert_eq!(Moment(8759.0).iso(), "2001-12-31T23:00:00");
        assert_eq!(Moment(8760.0).iso(), "2002-01-01T00:00:00");
        assert_eq!(Moment(0.001).iso(), "2001-01-01T00:00:03.600");
        // 0.1 added ten times is not 1.
        assert_eq!(Moment((0..10).map(|_| 0.1).sum()).iso(), "2001-01-01T01:00:00");
    }
}
