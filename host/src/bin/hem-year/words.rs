//! Numbers with their words.

/// A whole number in groups of three: 8784 is 8,784.
pub fn grouped(number: impl ToString) -> String {
    let digits = number.to_string();
    let mut text = String::new();
    for (place, digit) in digits.chars().enumerate() {
        if place > 0 && (digits.len() - place) % 3 == 0 {
            text.push(',');
        }
        text.push(digit);
    }
    text
}

/// A power in watts, as `6,000 W` and `0.5 W`.
pub fn watts(power: f64) -> String {
    let whole = power.fract() == 0.0 && (0.0..1e15).contains(&power);
    match whole {
        true => format!("{} W", grouped(power as u64)),
        false => format!("{power} W"),
    }
}

/// An energy, kWh, as `12.3`.
pub fn energy(kwh: f64) -> String {
    unsigned_nothing(format!("{kwh:.1}"))
}

/// A number in full.
fn in_full(number: f64) -> String {
    // 0 is added, since -0 would show its sign.
    (number + 0.0).to_string()
}

/// A number that was given: in full where that is three decimals at most, else as one that is calculated.
pub fn given(number: f64, beside: &[f64]) -> String {
    let full = in_full(number);
    match full.split_once('.') {
        Some((_, decimals)) if decimals.len() > 3 => told(number, 3, beside),
        _ => full,
    }
}

/// A number to so many decimals, or to as many more as it takes to see on which side it lies of others that
/// it is told beside.
pub fn told(number: f64, decimals: usize, beside: &[f64]) -> String {
    let keeps_sides = |decimals: &usize| {
        let rounded = value(number, *decimals);
        beside.iter().all(|other| {
            let side = number.partial_cmp(other);
            // The other may be told in full, or rounded itself.
            [*other, value(*other, *decimals)].iter().all(|o| rounded.partial_cmp(o) == side)
        })
    };
    match (decimals..=15).find(keeps_sides) {
        Some(enough) => unsigned_nothing(format!("{number:.enough$}")),
        None => in_full(number),
    }
}

/// The value that a number has to so many decimals.
fn value(number: f64, decimals: usize) -> f64 {
    format!("{number:.decimals$}").parse().unwrap_or(number)
}

/// What is rounded to nothing has no sign.
fn unsigned_nothing(text: String) -> String {
    match text.strip_prefix('-') {
        Some(nothing) if nothing.bytes().all(|byte| matches!(byte, b'0' | b'.')) => nothing.into(),
        _ => text,
    }
}

/// A number of hours or other things, as `1 hour` and `8,760 hours`.
pub fn count(number: usize, thing: &str) -> String {
    match number {
        1 => format!("1 {thing}"),
        _ => format!("{} {thing}s", grouped(number)),
    }
}

/// A number of hours of a book.
pub fn hours(number: usize) -> String {
    count(number, "hour")
}

/// The first hours of a book with their verb, as `first hour is` and `first 24 hours are`.
pub fn first_hours(number: usize) -> String {
    match number {
        1 => "first hour is".into(),
        _ => format!("first {} are", hours(number)),
    }
}

/// What is said of bytes behind the last whole hour of a book, where there are some.
pub fn unfinished(bytes: usize) -> String {
    let last = match bytes {
        0 => return String::new(),
        1 => "byte is".into(),
        _ => format!("{} are", count(bytes, "byte")),
    };
    format!("The last {last} an unfinished hour, which is not counted.\n")
}

/// A length of time in hours, to the thousandth, as `1,227.5`.
pub fn length(hours: f64) -> String {
    let thousandths = (hours * 1000.0).round() as u64;
    let mut text = grouped(thousandths / 1000);
    if thousandths % 1000 > 0 {
        text += format!(".{:03}", thousandths % 1000).trim_end_matches('0');
    }
    text
}

/// A length of time with its word, as `1 hour` and `0.25 hours`.
pub fn length_of_time(hours: f64) -> String {
    match length(hours).as_str() {
        "1" => "1 hour".into(),
        number => format!("{number} hours"),
    }
}

#[cfg(test)]
mod tests {
    use super::*;

    #[test]
    fn numbers_have_groups_and_their_words() {
        assert_eq!(
            (grouped(0), grouped(8760), grouped(u64::MAX)),
            ("0".into(), "8,760".into(), "18,446,744,073,709,551,615".into())
        );
        assert_eq!(
            (hours(1), hours(0), hours(1_000_000)),
            ("1 hour".into(), "0 hours".into(), "1,000,000 hours".into())
        );
        assert_eq!(
            (length(1227.5), length(0.1 + 0.2), length(8760.0)),
            ("1,227.5".into(), "0.3".into(), "8,760".into())
        );
        assert_eq!(
            (length_of_time(1.0), length_of_time(0.25)),
            ("1 hour".into(), "0.25 hours".into())
        );
        assert_eq!(
            [6000.0, -0.0, 2500.5, 1e7, -5.0, 1e20].map(watts),
            ["6,000 W", "0 W", "2500.5 W", "10,000,000 W", "-5 W", "100000000000000000000 W"]
        );
        assert_eq!(
            [12.34, -12.34, 0.04, -0.04, -0.0, -0.06].map(energy),
            ["12.3", "-12.3", "0.0", "0.0", "0.0", "-0.1"]
        );
    }

    #[test]
    fn a_number_is_told_on_its_side_of_another() {
        let beside = |number: f64, other: f64| told(number, 1, &[other]);
        assert_eq!(beside(26.34, 26.0), "26.3");
        assert_eq!(beside(26.04, 26.0), "26.04");
        assert_eq!(beside(25.996, 26.0), "25.996");
        assert_eq!(beside(26.0, 26.0), "26.0");
        assert_eq!(beside(26.0_f64.next_up(), 26.0), "26.000000000000004");
        assert_eq!(beside(26.0_f64.next_down(), 26.0), "25.999999999999996");
        assert_eq!((beside(-5.01, -5.0), beside(-0.01, 0.0)), ("-5.01".into(), "-0.01".into()));
        assert_eq!((beside(-0.0, 0.0), beside(-0.01, 5.0)), ("0.0".into(), "0.0".into()));
        // Where 15 decimals do not tell, all of them do.
        assert_eq!(beside(5e-324, 0.0).parse(), Ok(5e-324));
        assert_eq!(told(0.004, 2, &[0.0, 1.0]), "0.004");
    }

    #[test]
    fn numbers_told_beside_each_other_are_told_apart() {
        let both = |a: f64, b: f64| (told(a, 1, &[b]), told(b, 1, &[a]));
        assert_eq!(both(26.41, 26.4), ("26.41".into(), "26.40".into()));
        // One decimal lies between the two and would be told of both.
        assert_eq!(both(26.46, 26.54), ("26.46".into(), "26.54".into()));
        assert_eq!(both(26.4, 26.4), ("26.4".into(), "26.4".into()));
        // Whatever else each of them is told beside.
        let (a, b, c) = (26.44, 26.45, 26.4501);
        let three = [told(a, 1, &[b]), told(b, 1, &[a, c]), given(c, &[b])];
        assert_eq!(three, ["26.44", "26.4500", "26.4501"]);
    }

    #[test]
    fn a_given_number_is_short() {
        let alone = |number: f64| given(number, &[]);
        assert_eq!([-0.0, 22.0, 22.5, 0.125].map(alone), ["0", "22", "22.5", "0.125"]);
        assert_eq!([1.0 / 3.0, 2e-9, -2e-9].map(alone), ["0.333", "0.000", "0.000"]);
        assert_eq!(given(1.0 / 3.0, &[0.3333]), "0.33333");
        assert_eq!(given(2e-9, &[0.0]), "0.000000002");
    }
}
