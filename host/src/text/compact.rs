//! Hours as short text: what stays the same goes to the house file, what all elements share to one
//! column.
use super::hours_text::write_columns;
use super::open::Open;
use super::plan::{Constant, Plan};
use super::rates::{written, BOTH, FIXED, OPEN, TARGET};
use super::what::{Key, What};
use crate::conditions::Conditions;
use crate::names::TEXT_RATES;

/// The values of a column, hour by hour, as bits; `None` where an hour has no such rate.
type Series = Vec<Option<u64>>;

/// The plan with its constants, and the CSV text with the columns that are left.
pub fn compact(hours: &[Conditions], plan: &Plan) -> (Plan, String) {
    let mut short = Short { plan: Plan { constants: vec![], ..plan.clone() }, columns: vec![] };
    for what in What::all().filter(|what| matches!(what, What::Hour(_))) {
        short.add(Key { what, element: None }, &series(hours, what, 0));
    }
    short.add_rates(hours);
    for what in What::all_of_element() {
        short.add_of_elements(hours, what);
    }
    let text = write_columns(hours, &short.plan, &short.columns, 1);
    (short.plan, text)
}

struct Short {
    plan: Plan,
    columns: Vec<Key>,
}

impl Short {
    /// As a constant if it is one, else as a column.
    fn add(&mut self, key: Key, series: &Series) {
        match constant(key.what, series) {
            Some(constant) => self.plan.constants.push((key, constant)),
            None => self.columns.push(key),
        }
    }

    /// Where rates of several kinds occur, columns say which of them an hour has.
    fn add_rates(&mut self, hours: &[Conditions]) {
        let all: Vec<Series> =
            (0..TEXT_RATES.len()).map(|j| series(hours, What::Rate(j), 0)).collect();
        let occurs = |series: &Series| series.iter().any(Option::is_some);
        let kinds = [BOTH, TARGET, FIXED].into_iter().filter(|j| occurs(&all[*j])).count();
        for (j, series) in all.iter().enumerate().filter(|(_, series)| occurs(series)) {
            let key = Key { what: What::Rate(j), element: None };
            match j == OPEN || kinds == 1 {
                true => self.add(key, &series.iter().copied().filter(Option::is_some).collect()),
                false => self.columns.push(key),
            }
        }
    }

    /// What most elements share stands for all of them; the others have their own.
    fn add_of_elements(&mut self, hours: &[Conditions], what: What) {
        let concerned: Vec<usize> = (0..self.plan.names.len())
            .filter(|e| what != What::Open || self.plan.treatments_of(*e) != Some(0))
            .collect();
        let all: Vec<Series> = concerned.iter().map(|e| series(hours, what, *e)).collect();
        let alike = |one: &Series| all.iter().filter(|other| *other == one).count();
        let mut most = 0;
        for place in 1..all.len() {
            if alike(&all[place]) > alike(&all[most]) {
                most = place;
            }
        }
        let Some(shared) = all.get(most) else { return };
        let several = alike(shared) > 1;
        // A column of all elements shows the first one's values, so that it must be one that shares them.
        let column = constant(what, shared).is_none();
        let for_all = several && (!column || all[0] == *shared && concerned[0] == 0);
        if for_all {
            self.add(Key { what, element: None }, shared);
        }
        for (element, own) in concerned.into_iter().zip(&all) {
            if !(for_all && own == shared) {
                self.add(Key { what, element: Some(element) }, own);
            }
        }
    }
}

fn series(hours: &[Conditions], what: What, element: usize) -> Series {
    let value = |hour: &Conditions| match what {
        What::Hour(place) => Some(hour.values()[place].to_bits()),
        What::Rate(place) => written(&hour.ach)[place].map(f64::to_bits),
        What::Element(place) => Some(hour.elements[element].values()[place].to_bits()),
        What::Open => Some(hour.elements[element].open as u64),
    };
    hours.iter().map(value).collect()
}

fn constant(what: What, series: &Series) -> Option<Constant> {
    let first = (*series.first()?)?;
    if series.iter().any(|bits| *bits != Some(first)) {
        return None;
    }
    Some(match what {
        What::Open => Constant::Open(Open::These(first as u8)),
        _ => Constant::Number(f64::from_bits(first)),
    })
}
