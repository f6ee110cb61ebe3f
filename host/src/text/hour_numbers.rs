//! The numbers of the hours of a table.
use super::number::shown;

/// The numbers of hours, line by line. Each is the one before and 1 more, so that a line that was left out is
/// found.
#[derive(Clone, Copy, Debug, Default)]
pub struct HourNumbers {
    /// That of the line before.
    before: Option<u64>,
}

impl HourNumbers {
    /// The heading of their column.
    pub const HEADING: &'static str = "hour";

    /// Takes the number of the next line as it is written, and says what is wrong with it, if anything is.
    #[must_use]
    pub fn fault(&mut self, text: &str) -> Option<String> {
        let number: Option<u64> = text.parse().ok();
        let expected = self.before.map(|before| before + 1);
        self.before = number.or(expected).filter(|number| *number < u64::MAX);
        let heading = Self::HEADING;
        match (number, expected) {
            (None, _) => Some(format!("{heading} is {}, not a whole number", shown(text))),
            (Some(number), Some(expected)) if number != expected => {
                Some(format!("{heading} is {number}, where {expected} is next"))
            }
            _ => None,
        }
    }
}
