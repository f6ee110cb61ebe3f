//! Numbers as text.
use crate::conditions::NO_CONTROL;
use crate::names::Named;

/// The word for a setpoint that nothing reaches.
pub(crate) const NONE: &str = "none";

/// Whether `none` may stand for a value.
pub(crate) fn may_be_none(name: &str) -> bool {
    matches!(name, "temp_setpnt_cool" | "temp_setpnt_cool_vent" | "temp_setpnt_vent_init")
}

/// The `f64` nearest to a decimal: a sign, digits with or without a point, an exponent; all but the
/// digits may be left out. A word as `inf` is no number.
pub fn read(text: &str) -> Option<f64> {
    let decimal = |c: u8| c.is_ascii_digit() || matches!(c, b'+' | b'-' | b'.' | b'e' | b'E');
    if !text.bytes().all(decimal) {
        return None;
    }
    text.parse().ok()
}

/// The shortest decimal that reads back to the same bits; `inf` and `NaN` where it is no number.
pub(crate) fn written(value: f64) -> String {
    format!("{value:?}")
}

/// The shortest decimal that reads back to the same bits, as the tables of hours have it: a whole number without a
/// point, very great and small ones with an exponent; `inf` and `NaN` where it is no number.
pub fn short(value: f64) -> String {
    let text = written(value);
    match text.strip_suffix(".0") {
        Some(whole) => whole.to_string(),
        None => text,
    }
}

/// A value in a table: short, or the word for no control.
pub(crate) fn cell(of: &Named, value: f64) -> String {
    match value == NO_CONTROL && may_be_none(of.name) {
        true => NONE.into(),
        false => short(value),
    }
}

/// A field as it is shown where it is not understood.
pub(crate) fn shown(text: &str) -> String {
    match text {
        "" => "empty".into(),
        _ if text.chars().count() > 40 => {
            format!("{:?}...", text.chars().take(40).collect::<String>())
        }
        _ => format!("{text:?}"),
    }
}

/// What is said of a value that lies out of its range.
pub(crate) fn out_of_range(name: &str, value: &str, of: &Named) -> String {
    format!("{name} is {value}, out of its range {}", of.range)
}

#[cfg(test)]
mod tests {
    use super::*;

    #[test]
    fn a_number_reads_back_to_its_bits() {
        let some = [0.0, -0.0, 1.0, 0.1, 1e-5, 9.999e-6, 5e-324, 1e15, 1e16, f64::MAX, 1.4e32];
        for value in some.into_iter().flat_map(|v| [v, -v]) {
            for text in [written(value), short(value)] {
                assert_eq!(read(&text).map(f64::to_bits), Some(value.to_bits()), "{text}");
            }
        }
        assert_eq!(short(-0.0), "-0");
    }

    #[test]
    fn decimals_only() {
        assert_eq!(read("+1.5E+3"), Some(1500.0));
        assert_eq!(read(".5"), Some(0.5));
        // Halfway between two floats: to the even one.
        assert_eq!(read("9007199254740993"), Some(9007199254740992.0));
        for text in ["", "-", ".", "e5", "1e", "1,5", "1 5", "inf", "NaN", "0x10", "1_000", "--1"] {
            assert_eq!(read(text), None, "{text}");
        }
    }
}
