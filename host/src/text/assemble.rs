//! From the fields of a line and the constants of the house to the conditions of an hour.
use super::faults::Faults;
use super::heading::{Column, Headed};
use super::open::Open;
use super::plan::{Constant, Plan};
use super::rates;
use super::what::{Key, What};
use crate::conditions::{AirChangesPerHour, Conditions, ElementHour, NO_CONTROL};
use crate::names::TEXT_RATES;

/// A field that was read. `None` is empty, or bad and told.
pub(crate) type Field = Option<Constant>;

/// Where a value comes from.
#[derive(Clone, Copy, Debug)]
pub(crate) enum Source {
    Column(usize),
    Constant(Constant),
}

impl Source {
    fn field(self, fields: &[Field]) -> Field {
        match self {
            Self::Column(place) => fields[place],
            Self::Constant(constant) => Some(constant),
        }
    }

    /// The number of the line, NaN where it was told that there is none.
    fn number(source: Option<Self>, fields: &[Field]) -> f64 {
        match source.and_then(|source| source.field(fields)) {
            Some(Constant::Number(number)) => number,
            _ => f64::NAN,
        }
    }
}

/// A column and a constant of a rate, as far as there are some.
type Rate = (Option<usize>, Option<f64>);

/// Where all values of an hour come from.
pub(crate) struct Assembly {
    hour: [Option<Source>; 12],
    /// Which of them counts is seen in each line.
    rates: [Rate; TEXT_RATES.len()],
    elements: Vec<([Option<Source>; 5], Option<Source>)>,
}

impl Assembly {
    /// Finds the sources; a value without one is told.
    pub(crate) fn new(place: &str, columns: &[Headed], plan: &Plan, faults: &mut Faults) -> Self {
        let mut find = Find { place, columns, plan, faults };
        let elements = (0..plan.names.len()).map(|element| {
            let values = std::array::from_fn(|j| find.of_element(What::Element(j), element));
            (values, find.open(element))
        });
        let elements = elements.collect();
        let hour = std::array::from_fn(|j| find.of_hour(j));
        let rates = std::array::from_fn(|j| find.rate(j));
        find.some_rate(&rates);
        Self { hour, rates, elements }
    }

    /// Whether both setpoints that are compared stay the same, so that one line tells of all.
    pub(crate) fn setpoints_are_constant(&self, other: usize) -> bool {
        let constant = |j: usize| !matches!(self.hour[j], Some(Source::Column(_)));
        constant(6) && constant(other)
    }

    /// The conditions of a line, with NaN where something was told.
    pub(crate) fn conditions(
        &self,
        fields: &[Field],
        plan: &Plan,
        mut tell: impl FnMut(String),
    ) -> Conditions {
        let hour = self.hour.map(|source| Source::number(source, fields));
        let ach = self.ach(fields).unwrap_or_else(|text| {
            tell(text);
            AirChangesPerHour::Cooling { ach_cooling: f64::NAN }
        });
        let elements = self.elements.iter().enumerate().map(|(element, (values, open))| {
            let open = match open.and_then(|source| source.field(fields)) {
                Some(Constant::Open(open)) => open.byte(plan.treatments_of(element)),
                _ => Ok(0),
            };
            let open = open.unwrap_or_else(|text| {
                tell(format!("{}.open {text}", plan.names[element]));
                0
            });
            ElementHour::of_values(values.map(|source| Source::number(source, fields)), open)
        });
        let elements = elements.collect();
        Conditions::of_values(hour, ach, elements)
    }

    /// The rates of a line.
    fn ach(&self, fields: &[Field]) -> Result<AirChangesPerHour, String> {
        let given = self.rates.map(|(column, _)| match column.map(|place| fields[place]) {
            Some(Some(Constant::Number(rate))) => Some(rate),
            _ => None,
        });
        rates::read(given, self.rates.map(|(_, constant)| constant))
    }
}

/// Looks for sources.
struct Find<'a> {
    place: &'a str,
    columns: &'a [Headed],
    plan: &'a Plan,
    faults: &'a mut Faults,
}

impl Find<'_> {
    fn column(&self, what: What, element: Option<usize>) -> Option<usize> {
        let wanted = Column::Value(Key { what, element });
        self.columns.iter().position(|headed| headed.column == wanted)
    }

    /// A column goes before a constant.
    fn source(&self, what: What, element: Option<usize>) -> Option<Source> {
        let column = self.column(what, element).map(Source::Column);
        column.or_else(|| self.plan.constant(what, element).map(Source::Constant))
    }

    fn missing(&mut self, name: &str) {
        let text = format!("{name} is missing: it is no column, and no constant of a house file");
        self.faults.add(self.place, text);
    }

    /// What an absent value stands for, where it may be absent.
    fn of_hour(&mut self, j: usize) -> Option<Source> {
        let what = What::Hour(j);
        let absent = match what.name() {
            "temp_setpnt_cool_vent" => Some(NO_CONTROL),
            "gains_heat_cool_convective" | "gains_heat_cool_radiative" => Some(0.0),
            _ => None,
        };
        let absent = absent.map(|value| Source::Constant(Constant::Number(value)));
        let source = self.source(what, None).or(absent);
        if source.is_none() {
            self.missing(what.name());
        }
        source
    }

    /// An element's own value goes before that of all elements.
    fn of_element(&mut self, what: What, element: usize) -> Option<Source> {
        let source = self.source(what, Some(element)).or_else(|| self.source(what, None));
        if source.is_none() {
            self.missing(&format!("{}.{}", self.plan.names[element], what.name()));
        }
        source
    }

    /// Only an element that has treatments needs to know which are open, and only it takes what is said
    /// of all.
    fn open(&mut self, element: usize) -> Option<Source> {
        match self.plan.treatments_of(element) {
            Some(0) => self.source(What::Open, Some(element)),
            Some(_) => self.of_element(What::Open, element),
            None => {
                let none = Source::Constant(Constant::Open(Open::These(0)));
                let own = self.source(What::Open, Some(element));
                own.or_else(|| self.source(What::Open, None)).or(Some(none))
            }
        }
    }

    fn rate(&self, j: usize) -> Rate {
        let constant = match self.plan.constant(What::Rate(j), None) {
            Some(Constant::Number(rate)) => Some(rate),
            _ => None,
        };
        (self.column(What::Rate(j), None), constant)
    }

    /// Where no rates can come from anywhere, that is told once and not in every line.
    fn some_rate(&mut self, found: &[Rate; TEXT_RATES.len()]) {
        let given = found.map(|(column, constant)| column.is_some() || constant.is_some());
        if !rates::are_enough(given) {
            self.faults.add(self.place, rates::needed());
        }
    }
}
