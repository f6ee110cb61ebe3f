//! What is told of a book: in words, as a table and as a drawing, from one reading of it.
use crate::convection::{balances, Convection};
use crate::failure::Failure;
use crate::figures::{all_an_hour_long, figures, HourFigures};
use crate::fingerprint::Fingerprints;
use crate::monthly::{by_month, Month};
use crate::sums::Sums;
use crate::surfaces::Surfaces;
use crate::words::{count, length_of_time};
use hem_zone::{Book, Head, HeatBalance, Refusal};

/// The name and version of this program, as every print gives it.
pub const PROGRAM: &str = concat!("hem-year ", env!("CARGO_PKG_VERSION"));

pub struct Print<'a> {
    /// The house's name.
    pub name: String,
    /// The names of its elements.
    pub elements: Vec<String>,
    pub book: &'a Book,
    pub surfaces: Surfaces,
    pub hours: Vec<HourFigures>,
    /// The heat balance of each hour.
    pub balances: Vec<HeatBalance>,
    pub sums: Sums,
    pub months: Vec<Month>,
    pub fingerprints: Fingerprints,
}

impl<'a> Print<'a> {
    /// A house of this name, whose elements have these names.
    pub fn of(name: String, elements: Vec<String>, book: &'a Book) -> Result<Self, Failure> {
        let refused = |refusal: Refusal| Failure::Refused(refusal.to_string());
        let zone = book.zone();
        let start_up = zone.start_up().map_err(refused)?;
        let balances = balances(book, &start_up)?;
        let mut hours = figures(book, &start_up);
        for (hour, balance) in hours.iter_mut().zip(&balances) {
            hour.convection = Convection::of(balance, hour.length);
        }
        Ok(Self {
            // A name is one line in every print.
            name: name.replace(char::is_control, " "),
            elements,
            book,
            surfaces: Surfaces::of(&Head::from_bytes(zone.head()).map_err(refused)?),
            sums: Sums::of(&hours),
            months: by_month(&hours),
            hours,
            balances,
            fingerprints: Fingerprints::of(book),
        })
    }

    /// Whether any hour has the limits of a plant. Versions never fall, so the last one tells.
    pub fn has_limits(&self) -> bool {
        self.book.last_rule().is_some_and(|rule| rule.limits().is_some())
    }

    /// Useful floor area, m².
    pub fn area(&self) -> f64 {
        self.book.zone().layout().useful_area()
    }

    /// How long the book is: as `8,760 hours`, or `2,190 hours in 8,760 steps` where its entries are
    /// not all an hour long.
    pub fn length(&self) -> String {
        let all = length_of_time(self.sums.length);
        match all_an_hour_long(&self.hours) {
            true => all,
            false => format!("{all} in {}", count(self.hours.len(), "step")),
        }
    }
}
