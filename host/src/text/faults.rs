//! What is wrong with a text.
use std::fmt;

/// So many faults are told; of the others only the number.
pub const MOST_TOLD: usize = 100;

/// The faults of one or more files, each a sentence with its place.
#[derive(Clone, Debug, Default, PartialEq)]
pub struct Faults {
    told: Vec<String>,
    count: usize,
}

impl Faults {
    /// None yet.
    pub fn new() -> Self {
        Self::default()
    }

    /// Adds a fault: where it is, and what.
    pub fn add(&mut self, place: impl fmt::Display, sentence: impl fmt::Display) {
        self.add_sentence(format_args!("{place}: {sentence}"));
    }

    /// Adds a fault whose sentence says where it is.
    pub fn add_sentence(&mut self, sentence: impl fmt::Display) {
        self.count += 1;
        if self.told.len() < MOST_TOLD {
            self.told.push(sentence.to_string());
        }
    }

    /// How many there are.
    pub fn count(&self) -> usize {
        self.count
    }

    /// Whether there are none.
    pub fn is_empty(&self) -> bool {
        self.count == 0
    }

    /// The first ones, at most [`MOST_TOLD`].
    pub fn told(&self) -> &[String] {
        &self.told
    }

    /// The number in words: `1 fault`, `8760 faults, the first 100 are listed`.
    pub fn number(&self) -> String {
        match self.count {
            1 => "1 fault".into(),
            n if n > self.told.len() => {
                format!("{n} faults, the first {} are listed", self.told.len())
            }
            n => format!("{n} faults"),
        }
    }
}

/// A line for each fault that is told.
impl fmt::Display for Faults {
    fn fmt(&self, f: &mut fmt::Formatter) -> fmt::Result {
        self.told.iter().try_for_each(|fault| writeln!(f, "{fault}"))
    }
}
