//! A table of a house file, from which values are taken by name.
use super::faults::Faults;
use super::number::{may_be_none, out_of_range, NONE};
use super::tree::{Node, Pair};
use super::what::hint;
use crate::conditions::NO_CONTROL;
use crate::names::Named;
use toml::Spanned;

/// The file that is being read.
pub(crate) struct Reading<'a> {
    pub(crate) file: &'a str,
    pub(crate) text: &'a str,
    pub(crate) faults: &'a mut Faults,
}

impl Reading<'_> {
    /// Tells a fault at an offset of the text.
    pub(crate) fn fault(&mut self, at: usize, sentence: impl std::fmt::Display) {
        let line = 1 + self.text.as_bytes()[..at].iter().filter(|&&b| b == b'\n').count();
        self.faults.add(format_args!("{}:{line}", self.file), sentence);
    }

    /// A value as it stands in the text, cut where it is long.
    pub(crate) fn written(&self, value: &Spanned<Node>) -> String {
        let text = match value.get_ref() {
            Node::Table(_) => return "a table".into(),
            // [[NAME]] has no place of its own.
            Node::Array(_) if value.end() == 0 => return "a list of tables".into(),
            Node::Float(_) => self.float(value),
            _ => self.text.get(value.start()..value.end()).unwrap_or("").trim(),
        };
        let short: String = text.chars().take_while(|c| *c != '\n').take(40).collect();
        if short.len() < text.len() {
            short + "..."
        } else {
            short
        }
    }

    /// A float as it stands in the text. The parser knows only where it ends, since it begins to count
    /// after the point.
    fn float(&self, value: &Spanned<Node>) -> &str {
        let until = self.text.get(..value.end()).unwrap_or("");
        let part = |c: char| c.is_ascii_alphanumeric() || "+-._".contains(c);
        until.rfind(|c| !part(c)).map_or(until, |before| &until[before + 1..])
    }

    /// The number of a value, if it is one. A minus stays on a whole zero too.
    fn number(&self, value: &Spanned<Node>) -> Option<f64> {
        match *value.get_ref() {
            Node::Float(number) => Some(number),
            Node::Integer(0) if self.written(value).starts_with('-') => Some(-0.0),
            Node::Integer(number) => Some(number as f64),
            _ => None,
        }
    }
}

/// A table: what it is, as faults call it, and its values.
pub(crate) struct Table<'t> {
    title: String,
    at: usize,
    left: Vec<&'t Pair>,
    known: Vec<&'static str>,
}

impl<'t> Table<'t> {
    pub(crate) fn new(title: String, at: usize, pairs: &'t [Pair]) -> Self {
        Self { title, at, left: pairs.iter().collect(), known: vec![] }
    }

    /// A name as faults call it.
    pub(crate) fn called(&self, name: &str) -> String {
        format!("{}{name}", self.title)
    }

    pub(crate) fn fault(&self, reading: &mut Reading, text: impl std::fmt::Display) {
        reading.fault(self.at, format_args!("{}{text}", self.title));
    }

    /// Takes a value out, if it is there.
    pub(crate) fn take(&mut self, name: &'static str) -> Option<&'t Pair> {
        self.known.push(name);
        let place = self.left.iter().position(|(key, _)| key.get_ref() == name)?;
        Some(self.left.remove(place))
    }

    /// Takes a value that has to be there.
    pub(crate) fn needed(&mut self, reading: &mut Reading, name: &'static str) -> Option<&'t Pair> {
        let pair = self.take(name);
        if pair.is_none() {
            self.fault(reading, format_args!("{name} is missing"));
        }
        pair
    }

    /// What is left once all that is known was taken.
    pub(crate) fn left(&mut self) -> Vec<&'t Pair> {
        std::mem::take(&mut self.left)
    }

    /// Tells what is left: it is not known here.
    pub(crate) fn end(mut self, reading: &mut Reading) {
        for (key, _) in self.left() {
            let hint = hint(key.get_ref(), self.known.iter().copied());
            let text = format!("{} is not known here{hint}", self.called(key.get_ref()));
            reading.fault(key.start(), text);
        }
    }

    /// A number in its range, or NaN where a fault was told.
    pub(crate) fn number(&mut self, reading: &mut Reading, of: &Named) -> f64 {
        match self.needed(reading, of.name) {
            Some(pair) => self.number_of(reading, of, pair),
            None => f64::NAN,
        }
    }

    /// As `number`, with a value that stands for an absent one.
    pub(crate) fn number_or(&mut self, reading: &mut Reading, of: &Named, absent: f64) -> f64 {
        match self.take(of.name) {
            Some(pair) => self.number_of(reading, of, pair),
            None => absent,
        }
    }

    /// The number of a value that was taken out.
    pub(crate) fn number_of(&self, reading: &mut Reading, of: &Named, pair: &Pair) -> f64 {
        self.one_number(reading, of, &self.called(of.name), pair.0.start(), &pair.1)
    }

    fn one_number(
        &self,
        reading: &mut Reading,
        of: &Named,
        called: &str,
        at: usize,
        value: &Spanned<Node>,
    ) -> f64 {
        let written = reading.written(value);
        let word = |node: &Node| matches!(node, Node::Text(word) if word == NONE);
        if may_be_none(of.name) && word(value.get_ref()) {
            return NO_CONTROL;
        }
        match reading.number(value) {
            Some(number) if of.range.contains(number) => return number,
            Some(_) => reading.fault(at, out_of_range(called, &written, of)),
            None => reading.fault(at, not_a_number(called, &written, of)),
        }
        f64::NAN
    }

    /// As many numbers as are needed; one alone may stand without brackets. Where they are not as many,
    /// a fault is told and there are none.
    pub(crate) fn numbers(
        &mut self,
        reading: &mut Reading,
        of: &Named,
        count: usize,
    ) -> Option<Vec<f64>> {
        let pair = self.needed(reading, of.name)?;
        let values = self.list(reading, of, pair);
        if values.len() == count {
            return Some(values);
        }
        let called = self.called(of.name);
        let number = match values.len() {
            1 => "1 value".into(),
            n => format!("{n} values"),
        };
        reading
            .fault(pair.0.start(), format_args!("{called} has {number}, where {count} are needed"));
        None
    }

    /// The numbers of a value that was taken out.
    pub(crate) fn list(&self, reading: &mut Reading, of: &Named, pair: &Pair) -> Vec<f64> {
        let called = self.called(of.name);
        match pair.1.get_ref() {
            Node::Array(items) => {
                let item = |(j, item): (usize, &Spanned<Node>)| {
                    let called = format!("{called}[{j}]");
                    self.one_number(reading, of, &called, item.start(), item)
                };
                items.iter().enumerate().map(item).collect()
            }
            _ => vec![self.number_of(reading, of, pair)],
        }
    }

    /// A word that is one of these; gives its place among them.
    pub(crate) fn word(
        &mut self,
        reading: &mut Reading,
        name: &'static str,
        words: &[&str],
    ) -> Option<usize> {
        let (key, value) = self.needed(reading, name)?;
        let written = reading.written(value);
        let place = match value.get_ref() {
            Node::Text(word) => words.iter().position(|known| known == word),
            _ => None,
        };
        if place.is_none() {
            let known = words.join("\", \"");
            let text = format!("{} is {written}, not one of \"{known}\"", self.called(name));
            reading.fault(key.start(), text);
        }
        place
    }

    /// A table within this one; anything else is told.
    pub(crate) fn table(
        &self,
        reading: &mut Reading,
        title: String,
        pair: &'t Pair,
    ) -> Option<Table<'t>> {
        match pair.1.get_ref() {
            Node::Table(pairs) => Some(Table::new(title, pair.0.start(), pairs)),
            _ => {
                let called = self.called(pair.0.get_ref());
                let text = format!("{called} is {}, not a table", reading.written(&pair.1));
                reading.fault(pair.0.start(), text);
                None
            }
        }
    }
}

fn not_a_number(called: &str, written: &str, of: &Named) -> String {
    let or_none = if may_be_none(of.name) { " or \"none\"" } else { "" };
    format!("{called} is {written}, not a number{or_none} ({})", of.range)
}
