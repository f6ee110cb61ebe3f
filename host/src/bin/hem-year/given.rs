//! A command with the words that it is given: names of files, numbers and options.
use crate::commands::Command;
use crate::failure::Failure;
use crate::words::grouped;
use hem_zone::text::read_number;
use std::ffi::{OsStr, OsString};
use std::path::Path;
use std::str::FromStr;

/// A command with its words.
pub struct Words {
    pub command: &'static Command,
    /// Names of files, and numbers, in order.
    places: Vec<OsString>,
    options: Options,
}

/// The options as they are given, without their hyphens.
#[derive(Default)]
pub struct Options {
    pub values: Vec<(&'static str, Vec<OsString>)>,
    pub flags: Vec<&'static str>,
    pub help: bool,
    pub version: bool,
}

/// A usage error: one sentence, and where to read more.
pub fn wrong(command: Option<&Command>, text: impl std::fmt::Display) -> Failure {
    Failure::usage(match command {
        Some(Command { name, .. }) => format!("{name}: {text}; see `hem-year help {name}`"),
        None => format!("{text}; see `hem-year help`"),
    })
}

impl Words {
    /// The words of a command, where they fit it.
    pub fn of(
        command: &'static Command,
        places: Vec<OsString>,
        options: Options,
    ) -> Result<Self, Failure> {
        let words = Self { command, places, options };
        words.must_fit()?;
        Ok(words)
    }

    /// A usage error of this command.
    pub fn wrong(&self, text: impl std::fmt::Display) -> Failure {
        wrong(Some(self.command), text)
    }

    /// The command has these options, each is given once, and there is a word for each place.
    fn must_fit(&self) -> Result<(), Failure> {
        let values = self.options.values.iter().map(|(name, _)| *name);
        let given: Vec<&str> = values.chain(self.options.flags.iter().copied()).collect();
        for (place, name) in given.iter().enumerate() {
            if !self.command.options.contains(name) {
                return Err(self.wrong(format_args!("--{name} is not an option of this command")));
            }
            if given[..place].contains(name) {
                return Err(self.wrong(format_args!("--{name} is given twice")));
            }
        }
        self.places_must_fit()
    }

    fn places_must_fit(&self) -> Result<(), Failure> {
        let expected = self.command.places;
        if let Some(missing) = expected[..self.command.needed].get(self.places.len()) {
            return Err(self.wrong(format_args!("{missing} is missing")));
        }
        if let Some(more) = self.places.get(expected.len()) {
            return Err(self.wrong(format_args!("{more:?} is one word too many")));
        }
        let words = expected.iter().map(|name| name.to_string()).zip(&self.places);
        let options = self.options.values.iter();
        let values = options.flat_map(|(name, values)| {
            values.iter().map(move |value| (format!("--{name}"), value))
        });
        match words.chain(values).find(|(_, word)| word.is_empty()) {
            Some((name, _)) => Err(self.wrong(format_args!("the word for {name} is empty"))),
            None => Ok(()),
        }
    }

    /// The file at a place.
    pub fn path(&self, place: usize) -> &Path {
        Path::new(&self.places[place])
    }

    /// The file at a place that may be left out.
    pub fn path_if_given(&self, place: usize) -> Option<&Path> {
        self.places.get(place).map(Path::new)
    }

    /// The whole number at a place.
    pub fn number(&self, place: usize) -> Result<usize, Failure> {
        self.whole(self.command.places[place], &self.places[place], usize::MAX)
    }

    /// The whole number at a place that may be left out.
    pub fn number_if_given(&self, place: usize) -> Result<Option<usize>, Failure> {
        (place < self.places.len()).then(|| self.number(place)).transpose()
    }

    /// The whole number of an option, at most the greatest of its type.
    pub fn number_of<T: FromStr + ToString>(
        &self,
        option: &str,
        most: T,
    ) -> Result<Option<T>, Failure> {
        let Some(word) = self.value(option) else { return Ok(None) };
        self.whole(&format!("--{option}"), word, most).map(Some)
    }

    /// The number of an option, a decimal.
    pub fn decimal_of(&self, option: &str) -> Result<Option<f64>, Failure> {
        self.value(option).map(|word| self.decimal(option, word)).transpose()
    }

    /// The two numbers of an option, decimals.
    pub fn two_decimals_of(&self, option: &str) -> Result<Option<[f64; 2]>, Failure> {
        let [first, second] = self.values(option) else { return Ok(None) };
        Ok(Some([self.decimal(option, first)?, self.decimal(option, second)?]))
    }

    fn decimal(&self, option: &str, word: &OsStr) -> Result<f64, Failure> {
        let fault = match word.to_str().and_then(read_number) {
            Some(number) if number.is_finite() => return Ok(number),
            Some(_) => "beyond every number that can be held",
            None => "which is not a number",
        };
        Err(self.wrong(format!("--{option} is {word:?}, {fault}")))
    }

    fn whole<T: FromStr + ToString>(
        &self,
        name: &str,
        word: &OsStr,
        most: T,
    ) -> Result<T, Failure> {
        let number = word.to_str().and_then(|text| text.parse().ok());
        number.ok_or_else(|| {
            let most = grouped(most);
            let text = format!("{name} is {word:?}, which is not a whole number from 0 to {most}");
            self.wrong(text)
        })
    }

    /// The value of an option.
    pub fn value(&self, option: &str) -> Option<&OsStr> {
        self.values(option).first().map(OsString::as_os_str)
    }

    /// The values of an option, none where it is not given.
    fn values(&self, option: &str) -> &[OsString] {
        let found = self.options.values.iter().find(|(name, _)| *name == option);
        found.map_or(&[], |(_, values)| values)
    }

    /// The file of an option.
    pub fn file(&self, option: &str) -> Option<&Path> {
        self.value(option).map(Path::new)
    }

    /// Whether a flag is given.
    pub fn has(&self, flag: &str) -> bool {
        self.options.flags.contains(&flag)
    }

    /// Whether an option is given, with a value or as a flag.
    pub fn is_given(&self, option: &str) -> bool {
        self.has(option) || self.value(option).is_some()
    }

    /// An option that is of use only with another.
    pub fn needs(&self, option: &str, other: &str) -> Result<(), Failure> {
        match self.is_given(option) && !self.is_given(other) {
            true => Err(self.wrong(format_args!("--{option} is of use only with --{other}"))),
            false => Ok(()),
        }
    }

    /// At least one of these options must be given.
    pub fn needs_one_of(&self, options: [&str; 3]) -> Result<(), Failure> {
        match options.iter().any(|option| self.value(option).is_some()) {
            true => Ok(()),
            false => {
                let [a, b, c] = options;
                Err(self.wrong(format_args!("--{a}, --{b} or --{c} is needed")))
            }
        }
    }

    /// Two options of which only one may be given.
    pub fn excludes(&self, option: &str, other: &str) -> Result<(), Failure> {
        match self.is_given(option) && self.is_given(other) {
            true => Err(self.wrong(format_args!("--{option} and --{other} exclude each other"))),
            false => Ok(()),
        }
    }
}
