//! Why the engine turned a call away.
use std::fmt;

macro_rules! reasons {
    ($($(#[$doc:meta])* $name:ident = $number:literal, $sentence:literal;)*) => {
        /// Why a call was refused. `Reason::… as u32` is the number of the C interface.
        #[derive(Clone, Copy, Debug, PartialEq, Eq, Hash)]
        #[non_exhaustive]
        #[repr(u32)]
        pub enum Reason { $($(#[$doc])* $name = $number),* }

        impl Reason {
            /// The reason that a number of the C interface stands for.
            pub(crate) fn of_number(number: u32) -> Self {
                match number {
                    $($number => Reason::$name,)*
                    _ => Reason::Unknown,
                }
            }
        }

        /// What the reason means in general, in one sentence.
        impl fmt::Display for Reason {
            fn fmt(&self, f: &mut fmt::Formatter) -> fmt::Result {
                f.write_str(match self { $(Reason::$name => $sentence),* })
            }
        }
    };
}

reasons! {
    /// The calling thread does not calculate with floats as the engine needs it. The one reason that
    /// is this crate's own: the engine was not called.
    FloatEnvironment = 0, "the calling thread does not round to nearest with denormal numbers";
    /// The bytes of the head end early.
    HeadShort = 1, "the bytes of the head end early";
    /// The head's length is out of range, or is not that of its elements.
    HeadLength = 2, "the head's length is wrong";
    /// The head's version is not 1.
    HeadVersion = 3, "the head's version is unknown";
    /// A basis, element count, kind or treatment count is bad.
    Structure = 4, "a basis, count, kind or treatment count of the head is bad";
    /// A value of the head is out of range, or an open bit stands past the treatments.
    ZoneValue = 5, "a value of the head is out of range";
    /// The state has a wrong number of temperatures, or one that is not finite or beyond ±1e6.
    StateInvalid = 6, "the node temperatures do not fit the head or are beyond ±1,000,000 °C";
    /// The conditions have a wrong size.
    ConditionsSize = 7, "the conditions have a wrong size";
    /// The rate code, the second rate of code 0 or an open bit is bad. Code 0, one fixed rate, is bad itself
    /// except to [`Zone::why`](crate::Zone::why) and in an entry that a book holds.
    ConditionsCode = 8, "the rate code or an open bit of the conditions is bad";
    /// A value of the conditions, or an update's own gains, fraction or rate, is out of range.
    ConditionsValue = 9, "a value of the conditions is out of range";
    /// The cooling setpoint is below the heating setpoint.
    CoolingBelowHeating = 10, "the cooling setpoint is below the heating setpoint";
    /// The ventilation setpoint is below the heating setpoint.
    VentilationBelowHeating = 11, "the ventilation setpoint is below the heating setpoint";
    /// A divisor of the solution is zero or not finite.
    Divisor = 12, "the heat balance has no solution: a divisor is zero or not finite";
    /// A node temperature would not be finite or would lie beyond ±1e6.
    Temperature = 13,
        "a node temperature would not be finite or would lie beyond ±1,000,000 °C";
    /// Heating or cooling would not change the temperature.
    NoEffect = 14,
        "heating or cooling would not change the temperature, so no demand can be found";
    /// Start-up did not settle within the head's limit of passes.
    NotSettled = 15, "start-up did not settle within its limit of passes";
    /// The buffer of a book is too short. [`Book`](crate::Book) and [`convert`](crate::convert) make room
    /// themselves.
    BufferShort = 16, "the buffer of the book is too short";
    /// The book would hold more than 8,784 entries.
    BookFull = 17, "a book holds at most 8,784 entries";
    /// An entry is not what the hour step gives; or the entry version that a call names is one that no
    /// hour has, or is below that of the book's last entry.
    FalseEntry = 18, "an entry is not what its hour gives, or its version is unknown or too low";
    /// A limit of heating or cooling is out of range.
    LimitValue = 19, "a limit of heating or cooling is out of range";
    /// A value of a question about a book is not finite or beyond ±1e6, or the lower end of a band is above
    /// its upper.
    QuestionValue = 20,
        "a temperature asked about is beyond ±1,000,000 °C, or a band's lower end is above its upper";
    /// The line of a weather file that was asked for is absent, or one of its first sixteen fields.
    WeatherAbsent = 21, "the weather file has no such line, or the line fewer than sixteen fields";
    /// A value of a weather file is not a decimal, has more than 12 digits or is out of range.
    WeatherInvalid = 22,
        "a value of the weather file is not a decimal of at most 12 digits, or is out of range";
    /// A value of a weather file is missing: a temperature of 99.9, a radiation of 9999.
    WeatherMissing = 23, "a value of the weather file is missing";
    /// A book that is to be converted has an entry of version 1.
    Version1Entry = 24, "a book with entries of version 1 is not converted";
    /// A number that this crate does not know.
    Unknown = 255, "the engine refused the call";
}

/// A call that was refused. Nothing was changed by it.
#[derive(Clone, Debug, PartialEq, Eq)]
pub struct Refusal {
    number: u32,
    index: u32,
    sentence: String,
    /// Whether the index is the place of an entry that there is: that of 18 where a book is taken up.
    of_entry: bool,
}

impl Refusal {
    /// The refusal that an answer of the C interface stands for.
    pub(crate) fn new(answer: u32, sentence: impl FnOnce(u32, u32) -> String) -> Self {
        let (number, index) = (answer & 255, answer >> 8);
        Self { number, index, sentence: sentence(number, index), of_entry: false }
    }

    /// The refusal of an entry that a take-up found to be false.
    pub(crate) fn of_entry(answer: u32, sentence: impl FnOnce(u32) -> String) -> Self {
        Self { of_entry: true, ..Self::new(answer, |_, index| sentence(index)) }
    }

    /// Why the call was refused.
    pub fn reason(&self) -> Reason {
        Reason::of_number(self.number)
    }

    /// The engine's number, 1 to 24; 0 where the engine was not called ([`Reason::FloatEnvironment`]).
    pub fn number(&self) -> u32 {
        self.number
    }

    /// The engine's index: for 4, 5 and 9 the element from 1 (0 if none); for 18 at a take-up, a question or a
    /// conversion the entry from 0, at an append the number of hours held, at an hour step 0.
    pub fn index(&self) -> u32 {
        self.index
    }

    /// What is wrong and where, in one sentence.
    pub fn sentence(&self) -> &str {
        &self.sentence
    }
}

impl fmt::Display for Refusal {
    fn fmt(&self, f: &mut fmt::Formatter) -> fmt::Result {
        f.write_str(&self.sentence)?;
        match self.number {
            0 => Ok(()),
            4 | 5 | 9 if self.index > 0 => {
                write!(f, " (refusal {}, element {})", self.number, self.index)
            }
            _ if self.of_entry => {
                write!(f, " (refusal {}, entry {})", self.number, self.index)
            }
            _ => write!(f, " (refusal {})", self.number),
        }
    }
}

impl std::error::Error for Refusal {}

#[cfg(test)]
mod tests {
    use super::*;

    #[test]
    fn each_number_has_its_own_reason() {
        for number in 0..=24 {
            assert_eq!(Reason::of_number(number) as u32, number);
            assert_eq!(Refusal::new(number, |_, _| String::new()).reason() as u32, number);
        }
        assert_eq!(Reason::of_number(25), Reason::Unknown);
    }
}
