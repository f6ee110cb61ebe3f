//! Which value of an hour is meant.
use crate::names::{Named, ELEMENT_HOUR, HOUR, TEXT_RATES};

/// The name of the open treatments.
pub(crate) const OPEN: &str = "open";

/// A value of an hour, by its place in the tables of names.
#[derive(Clone, Copy, Debug, PartialEq)]
pub(crate) enum What {
    Hour(usize),
    Rate(usize),
    Element(usize),
    Open,
}

impl What {
    pub(crate) fn of_name(name: &str) -> Option<Self> {
        let place = |names: &[Named]| names.iter().position(|n| n.name == name);
        let of_hour = || place(&HOUR).map(Self::Hour);
        let of_rates = || place(&TEXT_RATES).map(Self::Rate);
        let of_element = || place(&ELEMENT_HOUR).map(Self::Element);
        let open = || (name == OPEN).then_some(Self::Open);
        of_hour().or_else(of_rates).or_else(of_element).or_else(open)
    }

    pub(crate) fn name(self) -> &'static str {
        self.named().map_or(OPEN, |named| named.name)
    }

    /// Name, range and unit, where the value is a number.
    pub(crate) fn named(self) -> Option<&'static Named> {
        match self {
            Self::Hour(place) => Some(&HOUR[place]),
            Self::Rate(place) => Some(&TEXT_RATES[place]),
            Self::Element(place) => Some(&ELEMENT_HOUR[place]),
            Self::Open => None,
        }
    }

    /// Whether each element has one of its own.
    pub(crate) fn of_element(self) -> bool {
        matches!(self, Self::Element(_) | Self::Open)
    }

    pub(crate) fn all() -> impl Iterator<Item = Self> {
        let of_hour = (0..HOUR.len()).map(Self::Hour);
        of_hour.chain((0..TEXT_RATES.len()).map(Self::Rate)).chain(Self::all_of_element())
    }

    pub(crate) fn all_of_element() -> impl Iterator<Item = Self> {
        (0..ELEMENT_HOUR.len()).map(Self::Element).chain([Self::Open])
    }
}

/// A value of an hour and the element that it is of; without one it is the hour's, or that of all
/// elements which have none of their own.
#[derive(Clone, Copy, Debug, PartialEq)]
pub(crate) struct Key {
    pub(crate) what: What,
    pub(crate) element: Option<usize>,
}

impl Key {
    /// As the heading of a column.
    pub(crate) fn heading(self, names: &[String]) -> String {
        match self.element {
            Some(element) => format!("{}.{}", names[element], self.what.name()),
            None => self.what.name().to_string(),
        }
    }
}

/// The known name that a wrong one was probably meant to be, as ` (is area meant?)`.
pub(crate) fn hint<'a>(wrong: &str, known: impl Iterator<Item = &'a str>) -> String {
    let nearest = known.map(|name| (distance(wrong, name), name)).min();
    match nearest {
        Some((distance, name)) if distance <= 2 && distance < name.len() => {
            format!(" (is {name} meant?)")
        }
        _ => String::new(),
    }
}

/// How many letters have to be added, left out or replaced.
fn distance(a: &str, b: &str) -> usize {
    let b: Vec<char> = b.chars().collect();
    let mut row: Vec<usize> = (0..=b.len()).collect();
    for (i, from) in a.chars().enumerate() {
        let mut before = i;
        row[0] = i + 1;
        for (j, to) in b.iter().enumerate() {
            let replaced = before + usize::from(from != *to);
            before = row[j + 1];
            row[j + 1] = replaced.min(row[j] + 1).min(before + 1);
        }
    }
    row[b.len()]
}

#[cfg(test)]
mod tests {
    use super::*;

    #[test]
    fn names_and_hints() {
        for what in What::all() {
            assert_eq!(What::of_name(what.name()), Some(what));
        }
        assert_eq!(distance("aera", "area"), 2);
        assert_eq!(hint("temp_exd", What::all().map(What::name)), " (is temp_ext meant?)");
        assert_eq!(hint("colour", What::all().map(What::name)), "");
    }
}
