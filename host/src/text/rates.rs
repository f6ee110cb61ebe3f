//! The air change rates of an hour as a text has them: `rate` for both, or `ach_target` and `ach_windows_open`, or
//! the fixed one, `ach_cooling`, that only hours of older books have.
use crate::conditions::AirChangesPerHour;
use crate::names::TEXT_RATES;

/// The places of the rates in [`TEXT_RATES`].
pub(crate) const BOTH: usize = 0;
pub(crate) const TARGET: usize = 1;
pub(crate) const OPEN: usize = 2;
pub(crate) const FIXED: usize = 3;

/// The name of a fixed rate.
pub const FIXED_RATE: &str = TEXT_RATES[FIXED].name;

/// The rates that are given, each at its place.
pub(crate) type Given = [Option<f64>; TEXT_RATES.len()];

fn pair(target: Option<f64>, open: Option<f64>) -> Option<AirChangesPerHour> {
    let (ach_target, ach_windows_open) = (target?, open?);
    Some(AirChangesPerHour::TargetAndWindowsOpen { ach_target, ach_windows_open })
}

/// The rates of a line. What stands in it goes before the constants, one of which may complete a pair.
pub(crate) fn read(line: Given, constants: Given) -> Result<AirChangesPerHour, String> {
    must_be_of_one_kind(&line)?;
    let given = match line {
        [None, None, None, None] => constants,
        [_, None, None, _] => line,
        [_, target, open, _] => {
            [None, target.or(constants[TARGET]), open.or(constants[OPEN]), None]
        }
    };
    let kinds = [
        given[BOTH].map(AirChangesPerHour::one_rate),
        pair(given[TARGET], given[OPEN]),
        given[FIXED].map(|ach_cooling| AirChangesPerHour::Cooling { ach_cooling }),
    ];
    let mut found = kinds.into_iter().flatten();
    match (found.next(), found.next()) {
        (Some(rates), None) => Ok(rates),
        _ => Err(needed()),
    }
}

fn must_be_of_one_kind(line: &Given) -> Result<(), String> {
    let [both, target, open, fixed] = TEXT_RATES.map(|rate| rate.name);
    match line {
        [Some(_), Some(_), _, _] | [Some(_), _, Some(_), _] | [Some(_), _, _, Some(_)] => {
            Err(format!("{both} is given together with {target}, {open} or {fixed}"))
        }
        [_, Some(_), _, Some(_)] | [_, _, Some(_), Some(_)] => {
            Err(format!("{fixed} is given together with {target} or {open}"))
        }
        _ => Ok(()),
    }
}

/// Said where an hour has no rates.
pub(crate) fn needed() -> String {
    let [both, target, open, _] = TEXT_RATES.map(|rate| rate.name);
    format!("either {both} or both {target} and {open} are needed")
}

/// Whether rates can be had where these are given.
pub(crate) fn are_enough(given: [bool; TEXT_RATES.len()]) -> bool {
    given[BOTH] || given[FIXED] || given[TARGET] && given[OPEN]
}

/// The rates of an hour as a text has them: two that are the same to the bit are one.
pub(crate) fn written(rates: &AirChangesPerHour) -> Given {
    match *rates {
        AirChangesPerHour::Cooling { ach_cooling } => [None, None, None, Some(ach_cooling)],
        AirChangesPerHour::TargetAndWindowsOpen { ach_target, ach_windows_open }
            if ach_target.to_bits() == ach_windows_open.to_bits() =>
        {
            [Some(ach_target), None, None, None]
        }
        AirChangesPerHour::TargetAndWindowsOpen { ach_target, ach_windows_open } => {
            [None, Some(ach_target), Some(ach_windows_open), None]
        }
    }
}

/// The same with the names of their columns.
pub fn rate_columns(rates: &AirChangesPerHour) -> [(&'static str, Option<f64>); 4] {
    let written = written(rates);
    std::array::from_fn(|place| (TEXT_RATES[place].name, written[place]))
}

#[cfg(test)]
mod tests {
    use super::*;

    fn fixed(ach_cooling: f64) -> AirChangesPerHour {
        AirChangesPerHour::Cooling { ach_cooling }
    }

    fn two(target: f64, open: f64) -> AirChangesPerHour {
        pair(Some(target), Some(open)).unwrap()
    }

    #[test]
    fn what_is_written_reads_back_to_the_bit() {
        let bits = |rates: &AirChangesPerHour| match *rates {
            AirChangesPerHour::Cooling { ach_cooling } => (0, ach_cooling.to_bits(), 0),
            AirChangesPerHour::TargetAndWindowsOpen { ach_target, ach_windows_open } => {
                (1, ach_target.to_bits(), ach_windows_open.to_bits())
            }
        };
        for (a, b) in [(0.5, 3.0), (0.5, 0.5), (0.0, 0.0), (-0.0, -0.0), (-0.0, 0.0), (0.0, -0.0)] {
            for rates in [two(a, b), fixed(a), fixed(b)] {
                let read = read(written(&rates), [None; 4]).unwrap();
                assert_eq!(bits(&read), bits(&rates));
            }
            let one = written(&two(a, b))[BOTH].is_some();
            assert_eq!(one, a.to_bits() == b.to_bits(), "{a} {b}");
        }
    }

    /// Every choice of rates in a line and of constants beside it.
    #[test]
    fn a_line_goes_before_constants_and_has_one_kind() {
        let given = |bits: usize, first: f64| -> Given {
            std::array::from_fn(|j| (bits >> j & 1 == 1).then_some(first + j as f64))
        };
        let one_of = |from: Given| {
            let both = from[BOTH].map(|rate| two(rate, rate));
            let found = [both, pair(from[TARGET], from[OPEN]), from[FIXED].map(fixed)];
            match found.iter().flatten().count() {
                1 => found.into_iter().flatten().next(),
                _ => None,
            }
        };
        for (line, constants) in (0..256).map(|n| (given(n / 16, 1.0), given(n % 16, 10.0))) {
            let [both, target, open, fixed] = line;
            let kinds = [both.is_some(), target.or(open).is_some(), fixed.is_some()];
            let expected = match (kinds.iter().filter(|kind| **kind).count(), kinds[1]) {
                (0, _) => one_of(constants),
                (1, true) => pair(target.or(constants[TARGET]), open.or(constants[OPEN])),
                (1, false) => one_of(line),
                _ => None,
            };
            assert_eq!(read(line, constants).ok(), expected, "{line:?} {constants:?}");
        }
    }
}
