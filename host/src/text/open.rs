//! Which treatments of an element are open, as text: `none`, `all`, or their numbers from 1.
use super::number::NONE;
use crate::values::treatments_text;

/// The most treatments that an element has.
const MOST: u8 = 4;

/// Open treatments of an element, or of all elements that have some.
#[derive(Clone, Copy, Debug, PartialEq)]
pub(crate) enum Open {
    All,
    /// Bit j, the least significant first, means treatment j.
    These(u8),
}

impl Open {
    /// `none`, `all` or numbers with spaces between them.
    pub(crate) fn read(text: &str) -> Option<Self> {
        match text {
            NONE => Some(Self::These(0)),
            "all" => Some(Self::All),
            "" => None,
            _ => Self::of_numbers(text.split_ascii_whitespace().map(|n| n.parse().ok())),
        }
    }

    /// Each number once, 1 to 4.
    pub(crate) fn of_numbers(numbers: impl Iterator<Item = Option<i64>>) -> Option<Self> {
        let mut bits = 0;
        for number in numbers {
            let number = number.filter(|n| (1..=MOST as i64).contains(n))?;
            let bit = 1 << (number - 1);
            if bits & bit != 0 {
                return None;
            }
            bits |= bit;
        }
        Some(Self::These(bits))
    }

    /// The byte of an element with so many treatments; of an unknown number where it is `None`. A
    /// number beyond them is told.
    pub(crate) fn byte(self, treatments: Option<usize>) -> Result<u8, String> {
        match (self, treatments) {
            (Self::All, Some(treatments)) => Ok((1 << treatments) - 1),
            (Self::All, None) => Err("is all, which needs the house file or head".into()),
            (Self::These(bits), Some(treatments)) if bits >> treatments != 0 => {
                Err(format!("is {}, but it has {}", words(bits), treatments_text(treatments)))
            }
            (Self::These(bits), _) => Ok(bits),
        }
    }
}

/// The numbers of the open treatments.
pub(crate) fn numbers(open: u8) -> impl Iterator<Item = String> {
    (0..8).filter(move |j| open >> j & 1 == 1).map(|j| (j + 1).to_string())
}

/// As a table has them.
pub(crate) fn words(open: u8) -> String {
    match open {
        0 => NONE.into(),
        _ => numbers(open).collect::<Vec<_>>().join(" "),
    }
}

#[cfg(test)]
mod tests {
    use super::*;

    #[test]
    fn every_byte_reads_back() {
        for bits in 0..16 {
            assert_eq!(Open::read(&words(bits)), Some(Open::These(bits)));
            assert_eq!(Open::These(bits).byte(Some(4)), Ok(bits));
        }
        assert_eq!(Open::read("3 1"), Some(Open::These(5)));
        assert_eq!(Open::All.byte(Some(2)), Ok(3));
        assert!(Open::These(4).byte(Some(2)).is_err() && Open::All.byte(None).is_err());
        for text in ["", "0", "5", "1 1", "1,2", "open", "-1"] {
            assert_eq!(Open::read(text), None, "{text}");
        }
    }
}
