//! The value of a decimal: the nearest f64, ties to even. What is nearest is found by whole numbers alone, so nothing
//! rests on another conversion being right.
#[path = "common/epw.rs"]
mod epw;
#[path = "common/generated.rs"]
mod generated;

use epw::one;
use generated::Chance;
use hem_zone::{weather, Refusal, Weather};

/// A decimal of a weather file: so many digits, of which the last `places` stand behind the point.
#[derive(Clone, Copy, Debug)]
struct Decimal {
    minus: bool,
    whole: u64,
    digits: usize,
    places: u32,
}

impl Decimal {
    fn of(text: &str) -> Self {
        let (minus, digits) = (text.starts_with('-'), text.replace(['-', '.'], ""));
        let places = text.split_once('.').map_or(0, |(_, behind)| behind.len() as u32);
        Self { minus, whole: digits.parse().unwrap(), digits: digits.len(), places }
    }

    fn text(&self) -> String {
        let sign = if self.minus { "-" } else { "" };
        let mut text = format!("{:01$}", self.whole, self.digits);
        if self.places > 0 {
            text.insert(self.digits - self.places as usize, '.');
        }
        format!("{sign}{text}")
    }

    /// Whether its magnitude is at most n / 10.
    fn at_most_tenths(&self, n: u128) -> bool {
        u128::from(self.whole) * 10 <= n * 10_u128.pow(self.places)
    }

    fn is_tenths(&self, n: u128) -> bool {
        u128::from(self.whole) * 10 == n * 10_u128.pow(self.places)
    }

    /// What must be answered where so many tenths mean missing, and a magnitude of so many is in range.
    fn number(&self, missing: u128, most: u128) -> u32 {
        match self.digits {
            13.. => 22,
            _ if !self.minus && self.is_tenths(missing) => 23,
            _ if self.at_most_tenths(most) => 0,
            _ => 22,
        }
    }

    /// Whether a float is the nearest to it. Four times the float's 53 bits, m, are 4 m; the middles to its
    /// neighbours are 4 m + 2 and 4 m - 2, or 4 m - 1 where the neighbour below is half as far away.
    fn is_nearest(&self, x: f64) -> bool {
        let bits = x.abs().to_bits();
        if self.whole == 0 || x.is_sign_negative() != self.minus {
            return bits == 0 && self.whole == 0 && x.is_sign_negative() == self.minus;
        }
        let m = u128::from(bits & ((1 << 52) - 1) | 1 << 52);
        // x is m / 2^shift; numbers so small or great that this leaves the 128 bits are near none of 12 digits.
        let shift = 1075 - (bits >> 52) as i64;
        if !(0..=100).contains(&shift) || u128::from(self.whole).leading_zeros() < shift as u32 + 2
        {
            return false;
        }
        let written = u128::from(self.whole) << (shift + 2);
        let ten = 10_u128.pow(self.places);
        let low = (4 * m - if m == 1 << 52 { 1 } else { 2 }) * ten;
        let high = (4 * m + 2) * ten;
        let tie = written == low || written == high;
        low < written && written < high || tie && m % 2 == 0
    }
}

/// The decimal in each of the three fields, the others good.
fn answers(decimal: Decimal) -> [Result<f64, u32>; 3] {
    let text = decimal.text();
    let number = |refusal: Refusal| refusal.number();
    let of = |file: Vec<u8>| weather(&file, 1).map_err(number);
    [
        of(one(&text, "1", "2")).map(|Weather { dry_bulb, .. }| dry_bulb),
        of(one("3", &text, "2")).map(|Weather { direct_normal, .. }| direct_normal),
        of(one("3", "1", &text)).map(|Weather { diffuse_horizontal, .. }| diffuse_horizontal),
    ]
}

/// What must be answered of a temperature, and of a radiation: 0, or the number of the refusal.
fn expected(decimal: Decimal) -> [u32; 2] {
    let most = if decimal.minus { 0 } else { 20_000 };
    [decimal.number(999, 1_000), decimal.number(99_990, most)]
}

/// Each of the three answers is as expected, and a value the nearest: neither of its neighbours is.
#[track_caller]
fn must_be_nearest(decimal: Decimal) -> [u32; 2] {
    let [temperature, radiation] = expected(decimal);
    for (answer, number) in answers(decimal).into_iter().zip([temperature, radiation, radiation]) {
        let text = decimal.text();
        assert_eq!(answer.err().unwrap_or(0), number, "{text}");
        let Ok(x) = answer else { continue };
        assert!(decimal.is_nearest(x), "{text} became {x:e}");
        assert!(!decimal.is_nearest(x.next_up()) && !decimal.is_nearest(x.next_down()), "{text}");
        assert!(!decimal.is_nearest(-x), "{text}");
    }
    [temperature, radiation]
}

/// A decimal whose value is likely to be in range: small, or with few digits before the point.
fn by_chance(chance: &mut Chance, digits: usize) -> Decimal {
    let before = match chance.below(4) {
        0 => 1 + chance.below(digits as u64) as usize,
        _ => 1 + chance.below(4.min(digits as u64)) as usize,
    };
    let whole = chance.below(10_u64.pow(digits as u32));
    let whole = if chance.below(4) == 0 { whole >> chance.below(40) } else { whole };
    Decimal { minus: chance.below(3) == 0, whole, digits, places: (digits - before) as u32 }
}

#[test]
fn decimals_by_chance_become_the_nearest_float() {
    // How many of them are a value, as a temperature or as a radiation; and how many answers are 22.
    let (mut chance, mut values, mut invalid) = (Chance(12), 0, 0);
    for round in 0..13 * 1_100 {
        let numbers = must_be_nearest(by_chance(&mut chance, 1 + round % 13));
        values += usize::from(numbers.contains(&0));
        invalid += numbers.iter().filter(|number| **number == 22).count();
    }
    assert!(values >= 10_000 && invalid > 5_000, "{values} {invalid}");
}

#[test]
fn every_split_of_some_digits() {
    for whole in [
        0,
        1,
        999,
        9999,
        99_990,
        123_456_789_012,
        999_999_999_999,
        100_000_000_001,
        200_000_000_001,
    ] {
        let least = whole.to_string().len();
        for digits in least..=13 {
            for places in 0..digits as u32 {
                for minus in [false, true] {
                    must_be_nearest(Decimal { minus, whole, digits, places });
                }
            }
        }
    }
}

#[test]
fn the_ends_of_the_ranges_and_the_missing_values() {
    for (text, answers) in [
        ("0", [0, 0]),
        ("-0", [0, 0]),
        ("-0.0", [0, 0]),
        ("0.00000000001", [0, 0]),
        ("-0.00000000001", [0, 22]),
        ("99.9", [23, 0]),
        ("99.9000000001", [0, 0]),
        ("99.8999999999", [0, 0]),
        ("99.90000000001", [22, 22]),
        ("-99.9", [0, 22]),
        ("100", [0, 0]),
        ("-100", [0, 22]),
        ("100.00000001", [22, 0]),
        ("-100.00000001", [22, 22]),
        ("99.9999999999", [0, 0]),
        ("2000", [22, 0]),
        ("2000.0000001", [22, 22]),
        ("1999.99999999", [22, 0]),
        ("9999", [22, 23]),
        ("9999.00000000", [22, 23]),
        ("9999.00000001", [22, 22]),
        ("9998.99999999", [22, 22]),
        ("-9999", [22, 22]),
    ] {
        assert_eq!(Decimal::of(text).text(), text);
        assert_eq!(must_be_nearest(Decimal::of(text)), answers, "{text}");
    }
}

/// The decimals below have 12 digits, 11 of them behind the point: whole / 10^11.
const PLACES: u32 = 11;
const TEN: u128 = 10_u128.pow(PLACES);
const FIVE: u128 = 5_u128.pow(PLACES);
/// 1 / 2, divided by 5^11.
const HALF: u128 = FIVE.div_ceil(2);

/// Decimals from 2^power to twice that, where floats are 2^-exponent apart, of which whole * 2^exponent leaves
/// rest * 2^11 when it is divided by 10^11: whole * 2^(exponent - 11) leaves rest when it is divided by 5^11.
fn decimals_that_leave(rest: u128, power: u32) -> impl Iterator<Item = u128> {
    let first = (0..52 - power - PLACES).fold(rest, |left, _| left * HALF % FIVE);
    let (least, most) = (TEN << power, (TEN << (power + 1)).min(10 * TEN));
    (0..)
        .map(move |i| first + i * FIVE)
        .skip_while(move |w| *w < least)
        .take_while(move |w| *w < most)
}

/// Decimals as near to the middle of two floats as they can be. The middle leaves half of 10^11, an odd multiple of
/// 2^10, and no decimal does, since what it leaves is a multiple of 2^11. The nearest are 2^10 away, a
/// hundred-millionth of what two floats are apart, and the next three times that. A value that is rounded twice
/// becomes the middle first, and then the wrong float for the one or the other.
#[test]
fn decimals_next_to_the_middle_of_two_floats() {
    let mut met = 0;
    for power in 0..4 {
        for (rest, distance) in [(HALF - 2, 3), (HALF - 1, 1), (HALF, 1), (HALF + 1, 3)] {
            for whole in decimals_that_leave(rest, power).step_by(97) {
                let left = (whole << (52 - power)) % TEN;
                assert_eq!(left.abs_diff(TEN / 2), distance << 10, "{whole}");
                let whole = whole as u64;
                let decimal = Decimal { minus: false, whole, digits: 12, places: PLACES };
                assert_eq!(must_be_nearest(decimal), [0, 0]);
                met += 1;
            }
        }
    }
    assert!(met > 500, "{met}");
}

#[test]
fn the_test_of_nearness_can_fail() {
    let tenth = Decimal { minus: false, whole: 1, digits: 2, places: 1 };
    assert!(tenth.is_nearest(0.1) && !tenth.is_nearest(0.0) && !tenth.is_nearest(1e300));
    assert!(
        !tenth.is_nearest(f64::INFINITY) && !tenth.is_nearest(5e-324) && !tenth.is_nearest(-0.1)
    );
    // A power of two, whose neighbour below is nearer.
    let one = Decimal { minus: true, whole: 10, digits: 2, places: 1 };
    assert!(
        one.is_nearest(-1.0)
            && !one.is_nearest(-1.0_f64.next_down())
            && !one.is_nearest(-1.0_f64.next_up())
    );
    let zero = Decimal { minus: true, whole: 0, digits: 2, places: 1 };
    assert!(zero.is_nearest(-0.0) && !zero.is_nearest(0.0) && !zero.is_nearest(-5e-324));
}
