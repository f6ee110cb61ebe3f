//! What is said of all lines of a weather file.
use crate::weather::place;
use crate::weather_columns::Quantity;
use crate::words::{self, count, grouped};
use hem_zone::{Refusal, Weather};
use std::collections::BTreeMap;
use std::path::Path;

/// So many lines that are refused are named.
const NAMED: usize = 5;

/// The lines so far: the numbers of those that are read, and which are refused.
#[derive(Default)]
pub struct Overview {
    lines: u64,
    figures: [Figures; 3],
    /// How many lines are refused with each number.
    refused: BTreeMap<u32, usize>,
    /// The first of them, a sentence each.
    named: Vec<String>,
}

/// Numbers of one quantity.
#[derive(Default)]
struct Figures {
    count: usize,
    sum: f64,
    /// The first of equal ones, with its line.
    lowest: Option<(f64, u64)>,
    highest: Option<(f64, u64)>,
}

impl Figures {
    fn add(&mut self, value: f64, line: u64) {
        self.count += 1;
        self.sum += value;
        if self.lowest.is_none_or(|(lowest, _)| value < lowest) {
            self.lowest = Some((value, line));
        }
        if self.highest.is_none_or(|(highest, _)| value > highest) {
            self.highest = Some((value, line));
        }
    }
}

impl Overview {
    /// Adds the next line; gives its number.
    pub fn add(&mut self, path: &Path, answer: &Result<Weather, Refusal>) -> u64 {
        self.lines += 1;
        match answer {
            Ok(weather) => {
                for (figures, quantity) in self.figures.iter_mut().zip(Quantity::ALL) {
                    figures.add(quantity.of(weather), self.lines);
                }
            }
            Err(refusal) => {
                *self.refused.entry(refusal.number()).or_default() += 1;
                if self.named.len() < NAMED {
                    self.named.push(format!("{}: {refusal}", place(path, self.lines)));
                }
            }
        }
        self.lines
    }

    /// What is said where no line is read: what the engine says of line 1 where there is none, else which
    /// numbers the lines are refused with.
    pub fn nothing_read(
        &self,
        path: &Path,
        first: impl FnOnce() -> Option<Refusal>,
    ) -> Option<String> {
        match self.named.first() {
            _ if self.figures[0].count > 0 => None,
            Some(named) => {
                let all = count(self.lines as usize, "line");
                Some(format!("{named}; of {all} none is read: {}", self.numbers()))
            }
            None => first().map(|refusal| format!("{}: {refusal}", place(path, 1))),
        }
    }

    /// How many lines are refused with which numbers.
    fn numbers(&self) -> String {
        let each: Vec<String> = self
            .refused
            .iter()
            .map(|(number, lines)| format!("{} with {number}", grouped(lines)))
            .collect();
        each.join(", ")
    }

    pub fn text(&self, path: &Path) -> String {
        let lines = count(self.lines as usize, "line");
        let mut text = format!("{}: {lines} after the eight header lines\n", path.display());
        for (figures, quantity) in self.figures.iter().zip(Quantity::ALL) {
            text += &format!("{:20}{}\n", quantity.title(), told(figures, quantity));
        }
        let refused = match self.refused.values().sum() {
            0 => "none".into(),
            all => format!("{}: {}", count(all, "line"), self.numbers()),
        };
        text += &format!("{:20}{refused}\n", "Refused");
        self.named.iter().for_each(|named| text += &format!("  {named}\n"));
        text
    }
}

/// The extremes of a temperature and its mean, or the highest of a radiation and its sum.
fn told(figures: &Figures, quantity: Quantity) -> String {
    let unit = quantity.unit();
    let at = |extreme: Option<(f64, u64)>| match extreme {
        Some((value, line)) => format!("{value} {unit} (line {line})"),
        None => String::new(),
    };
    let highest = at(figures.highest);
    match quantity {
        Quantity::DryBulb => format!(
            "lowest {}, highest {highest}, mean {} {unit}",
            at(figures.lowest),
            words::told(figures.sum / figures.count as f64, 2, &[])
        ),
        _ => format!("highest {highest}, sum {} kWh/m²", words::energy(figures.sum / 1000.0)),
    }
}
