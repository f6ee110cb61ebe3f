//! The values of heads and conditions by name, each with its range, in the order of the bytes.
use crate::bytes::f64_at;
use crate::layout::nodes_and_gaps;
use crate::names::{self, Named};
#[cfg(feature = "text")]
use crate::ranges::plain;
use crate::ranges::{Range, OPEN, RATE};

/// A value of a head or of conditions: whose it is (element from 1, or 0), its name and its range.
pub(crate) struct Value {
    pub(crate) index: u32,
    pub(crate) name: String,
    pub(crate) value: f64,
    pub(crate) range: Range,
}

impl Value {
    /// What is said of a value that is out of its range.
    #[cfg(feature = "text")]
    pub(crate) fn sentence(&self) -> String {
        let at = match self.index {
            0 => String::new(),
            element => format!("element {element}: "),
        };
        format!("{at}{} is {}, out of its range {}", self.name, plain(self.value), self.range)
    }
}

/// Reads values one after the other, and stops where the bytes end.
struct Walk<'a> {
    bytes: &'a [u8],
    at: usize,
    index: u32,
    values: Vec<Value>,
}

impl<'a> Walk<'a> {
    fn new(bytes: &'a [u8], at: usize) -> Self {
        Self { bytes, at, index: 0, values: vec![] }
    }

    fn float(&mut self, name: impl Into<String>, range: Range) {
        if self.at + 8 <= self.bytes.len() {
            let value = f64_at(self.bytes, self.at);
            self.values.push(Value { index: self.index, name: name.into(), value, range });
        }
        self.at += 8;
    }

    fn floats(&mut self, values: &[Named]) {
        for value in values {
            self.float(value.name, value.range);
        }
    }

    fn row(&mut self, of: &Named, count: usize) {
        for j in 0..count {
            self.float(format!("{}[{j}]", of.name), of.range);
        }
    }

    fn byte(&mut self) -> Option<u8> {
        self.at += 1;
        self.bytes.get(self.at - 1).copied()
    }

    fn open(&mut self, treatments: usize) {
        if let Some(open) = self.byte() {
            let name = format!("open (with {})", treatments_text(treatments));
            let range = OPEN[treatments.min(4)];
            self.values.push(Value { index: self.index, name, value: open as f64, range });
        }
    }
}

pub(crate) fn treatments_text(treatments: usize) -> String {
    match treatments {
        0 => "no treatments".into(),
        1 => "1 treatment".into(),
        _ => format!("{treatments} treatments"),
    }
}

/// The values of a head.
pub(crate) fn head_values(head: &[u8]) -> Vec<Value> {
    let mut walk = Walk::new(head, 7);
    let (high, low) = (walk.byte().unwrap_or(0), walk.byte().unwrap_or(0));
    let limit = u16::from_be_bytes([high, low]) as f64;
    let Named { name, range, .. } = names::START_UP_LIMIT;
    walk.values.push(Value { index: 0, name: name.into(), value: limit, range });
    walk.floats(&names::HEAD);
    for _ in 0..head.get(6).copied().unwrap_or(0) {
        walk.index += 1;
        head_element(&mut walk);
    }
    walk.values
}

fn head_element(walk: &mut Walk) {
    let (Some(kind), Some(treatments)) = (walk.byte(), walk.byte()) else { return };
    let (nodes, gaps) = nodes_and_gaps(kind);
    walk.floats(&names::ELEMENT);
    walk.row(&names::CAPACITY, nodes);
    walk.row(&names::CONDUCTANCE, gaps);
    walk.row(&names::TREATMENT, treatments as usize);
    walk.floats(&names::ELEMENT_HOUR);
    walk.open(treatments as usize);
}

/// The values of conditions.
pub(crate) fn conditions_values(bytes: &[u8]) -> Vec<Value> {
    let mut walk = Walk::new(bytes, 0);
    walk.floats(&names::HOUR);
    match walk.byte() {
        Some(0) => {
            walk.floats(&names::RATES[..1]);
            walk.float("the unused second rate", RATE);
        }
        _ => walk.floats(&names::RATES[1..]),
    }
    while walk.at < bytes.len() {
        walk.index += 1;
        walk.floats(&names::ELEMENT_HOUR);
        walk.byte();
    }
    walk.values
}
