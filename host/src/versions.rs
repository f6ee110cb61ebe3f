//! The versions of entries, and the rule by which an hour is calculated. A call that names a version takes
//! every number: the engine refuses, with 18, those that no hour has.
use crate::ffi;
use crate::limits::Limits;

/// The power that heating or cooling delivers is shared between air and surfaces by the convective
/// fraction of heating, also where it cools.
pub const ENTRY_VERSION_1: u64 = 1;
/// A delivered power below 0 is shared by the convective fraction of cooling, any other by that of heating.
pub const ENTRY_VERSION_2: u64 = 2;
/// As version 2, and the delivered power has [`Limits`]: what lies beyond becomes the limit. The demand is
/// told uncut.
pub const ENTRY_VERSION_3: u64 = 3;
/// The newest version; the first is 1. A book may pass to a newer version, never back.
pub const NEWEST_ENTRY_VERSION: u64 = ffi::NEWEST_ENTRY_VERSION;

/// Whether an hour of this version has limits.
pub(crate) fn has_limits(version: u64) -> bool {
    version == ENTRY_VERSION_3
}

/// Whether hours have this version.
pub(crate) fn is_known(version: u64) -> bool {
    (ENTRY_VERSION_1..=NEWEST_ENTRY_VERSION).contains(&version)
}

/// The rule of an hour: its entry version, and the limits that an hour of version 3 has.
///
/// Where a call asks for a rule, a version or limits will do: [`ENTRY_VERSION_1`] and [`ENTRY_VERSION_2`]
/// are rules of their own, and [`Limits`] are a rule of version 3.
///
/// ```
/// use hem_zone::{samples, Book, Limits, Rule, ENTRY_VERSION_2, ENTRY_VERSION_3};
///
/// let mut book = Book::begin(&samples::house_p())?;
/// let hour = samples::hour_p(21.0, 24.0);
/// book.append(&hour, ENTRY_VERSION_2)?;
/// book.append(&hour, Limits::of_heating(100.0))?;
/// assert_eq!(book.entry(1).unwrap().rule(), Rule::new(ENTRY_VERSION_3, Limits::of_heating(100.0)));
/// # Ok::<(), hem_zone::Refusal>(())
/// ```
#[derive(Clone, Copy, Debug)]
pub struct Rule {
    version: u64,
    limits: Limits,
}

impl Rule {
    /// What stands for limits where none are given.
    const NO_LIMITS: Limits = Limits { heating: f64::NAN, cooling: f64::NAN };

    /// The rule of a version with limits. Only version 3 looks at them.
    pub fn new(version: u64, limits: Limits) -> Self {
        Self { version, limits }
    }

    /// The entry version.
    pub fn version(&self) -> u64 {
        self.version
    }

    /// The limits, of a version that has them.
    pub fn limits(&self) -> Option<Limits> {
        has_limits(self.version).then_some(self.limits)
    }

    /// The two floats that the calls are handed in any case.
    pub(crate) fn handed(&self) -> Limits {
        self.limits
    }
}

/// Equal where the versions are, and the limits that they look at.
impl PartialEq for Rule {
    fn eq(&self, other: &Self) -> bool {
        (self.version, self.limits()) == (other.version, other.limits())
    }
}

/// A version without limits. Version 3 has to have some: by its number alone it is refused with 19.
impl From<u64> for Rule {
    fn from(version: u64) -> Self {
        Self::new(version, Self::NO_LIMITS)
    }
}

/// Version 3 with these limits.
impl From<Limits> for Rule {
    fn from(limits: Limits) -> Self {
        Self::new(ENTRY_VERSION_3, limits)
    }
}

/// The versions from the first to `last` in words, with `joint` before the last: as `1 or 2`.
pub fn entry_versions_to(last: u64, joint: &str) -> String {
    let before: Vec<String> = (ENTRY_VERSION_1..last).map(|version| version.to_string()).collect();
    match before.is_empty() {
        true => last.to_string(),
        false => format!("{} {joint} {last}", before.join(", ")),
    }
}

#[cfg(test)]
mod tests {
    use super::*;

    #[test]
    fn versions_in_words() {
        assert_eq!(entry_versions_to(1, "or"), "1");
        assert_eq!(entry_versions_to(2, "and"), "1 and 2");
        assert_eq!(entry_versions_to(3, "or"), "1, 2 or 3");
    }

    #[test]
    fn rules_are_equal_by_what_they_look_at() {
        let (low, high) = (Limits::of_heating(1.0), Limits::of_heating(2.0));
        assert_eq!(Rule::new(ENTRY_VERSION_2, low), Rule::from(ENTRY_VERSION_2));
        assert_eq!(Rule::new(ENTRY_VERSION_3, low), Rule::from(low));
        assert_ne!(Rule::from(low), Rule::from(high));
        assert_ne!(Rule::from(ENTRY_VERSION_1), Rule::from(ENTRY_VERSION_2));
        assert_eq!(
            (Rule::from(low).limits(), Rule::from(ENTRY_VERSION_2).limits()),
            (Some(low), None)
        );
    }
}
