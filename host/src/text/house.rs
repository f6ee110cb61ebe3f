//! Reading a house file.
use super::constants::{read_constants, read_open};
use super::faults::Faults;
use super::open::Open;
use super::plan::Plan;
use super::table::{Reading, Table};
use super::tree::{tree, Node, Pair};
use super::what::OPEN;
use crate::conditions::{ElementHour, NO_CONTROL};
use crate::head::{Basis, BuildingElement, Head, Kind};
use crate::layout::{nodes_and_gaps, TRANSPARENT};
use crate::names::{self, Named};

/// What a house file says.
#[derive(Clone, Debug, PartialEq)]
pub struct House {
    /// The head; none where the file has a fault.
    pub head: Option<Head>,
    /// What hours need to know of the house. It is there in spite of most faults, so that hours can be
    /// checked beside it.
    pub plan: Option<Plan>,
}

/// The kinds by name, in the order of their numbers.
pub(crate) const KINDS: [&str; 6] = [
    "Opaque",
    "AdjacentConditionedSpace",
    "AdjacentUnconditionedSpaceSimple",
    "Ground",
    "Transparent",
    "PartyWall",
];
/// The bases by name, in the order of their numbers.
pub(crate) const BASES: [&str; 2] = ["air", "operative"];
const MOST_ELEMENTS: usize = 24;
const MOST_TREATMENTS: usize = 4;

/// The house of a TOML text. `file` is its name, for the faults.
pub fn read_house(file: &str, text: &str, faults: &mut Faults) -> House {
    let before = faults.count();
    let mut reading = Reading { file, text, faults };
    let root = match tree(text) {
        Ok(Node::Table(pairs)) => pairs,
        Ok(_) => vec![],
        Err((at, sentence)) => {
            reading.fault(at.unwrap_or(0), sentence);
            return House { head: None, plan: None };
        }
    };
    let mut table = Table::new(String::new(), 0, &root);
    let name = read_name(&mut reading, &mut table);
    let head = read_head(&mut reading, &mut table);
    let plan = head.as_ref().map(|(head, names)| {
        let mut plan = Plan { house: name, ..Plan::with_names(head, names.clone()) };
        if let Some(pair) = table.take("conditions") {
            let inner = table.table(&mut reading, "conditions: ".into(), pair);
            if let Some(inner) = inner {
                read_constants(&mut reading, inner, &mut plan);
            }
        }
        plan
    });
    table.take("conditions");
    table.end(&mut reading);
    let good = faults.count() == before;
    House { head: head.filter(|_| good).map(|(head, _)| head), plan }
}

/// The name of the house, which it need not have.
fn read_name(reading: &mut Reading, table: &mut Table) -> Option<String> {
    let (key, value) = table.take("name")?;
    match value.get_ref() {
        Node::Text(name) if !name.is_empty() && !name.chars().any(char::is_control) => {
            Some(name.clone())
        }
        _ => {
            let text = format!("name is {}, not a name in one line", reading.written(value));
            reading.fault(key.start(), text);
            None
        }
    }
}

/// The head, with NaN where a fault was told, and the elements' names; nothing where there are no
/// elements.
fn read_head(reading: &mut Reading, table: &mut Table) -> Option<(Head, Vec<String>)> {
    let basis = match table.word(reading, "temp_setpnt_basis", &BASES) {
        Some(1) => Basis::Operative,
        _ => Basis::Air,
    };
    let limit = read_limit(reading, table);
    let values = std::array::from_fn(|j| match &names::HEAD[j] {
        vent if vent.name == "temp_setpnt_vent_init" => table.number_or(reading, vent, NO_CONTROL),
        named => table.number(reading, named),
    });
    let (names, elements) = read_elements(reading, table)?;
    Some((Head::of_values(basis, limit, values, elements), names))
}

/// A whole number of passes, 0 where a fault was told.
fn read_limit(reading: &mut Reading, table: &mut Table) -> u16 {
    let Some(pair) = table.needed(reading, names::START_UP_LIMIT.name) else { return 0 };
    let limit = table.number_of(reading, &names::START_UP_LIMIT, pair);
    if limit.fract() > 0.0 {
        let written = reading.written(&pair.1);
        reading
            .fault(pair.0.start(), format_args!("start_up_limit is {written}, not a whole number"));
    }
    limit as u16
}

type Elements = (Vec<String>, Vec<BuildingElement>);

fn read_elements(reading: &mut Reading, table: &mut Table) -> Option<Elements> {
    let Some(pair) = table.take("element") else {
        table.fault(reading, "the house has no elements: each is a table [element.NAME]");
        return None;
    };
    if matches!(pair.1.get_ref(), Node::Array(_)) {
        let text = "the elements are a list, where each has to be a table [element.NAME]";
        reading.fault(pair.0.start(), text);
        return None;
    }
    let mut tables = table.table(reading, "element ".into(), pair)?;
    let pairs = tables.left();
    if !(1..=MOST_ELEMENTS).contains(&pairs.len()) {
        let text = format!("the house has {} elements, not 1 to {MOST_ELEMENTS}", pairs.len());
        reading.fault(pair.0.start(), text);
    }
    let mut elements = (vec![], vec![]);
    for pair in pairs {
        let name = pair.0.get_ref();
        check_name(reading, pair);
        let Some(inner) = tables.table(reading, format!("element {name}: "), pair) else {
            continue;
        };
        elements.1.push(read_element(reading, inner));
        elements.0.push(name.clone());
    }
    (!elements.0.is_empty()).then_some(elements)
}

/// A name that can stand in a heading of a table.
fn check_name(reading: &mut Reading, pair: &Pair) {
    let name = pair.0.get_ref();
    if name.is_empty() || name.trim() != name || name.chars().any(char::is_control) {
        let text = format!(
            "element {name:?}: a name has at least one letter, none that is a control character, and no space at its ends"
        );
        reading.fault(pair.0.start(), text);
    }
}

fn read_element(reading: &mut Reading, mut table: Table) -> BuildingElement {
    let number = table.word(reading, "kind", &KINDS).map(|place| place as u8);
    let values = std::array::from_fn(|j| table.number(reading, &names::ELEMENT[j]));
    let kind = read_kind(reading, &mut table, number);
    let treatments = kind.parts().2.len();
    let first_hour = match table.needed(reading, "first_hour") {
        None => nothing(),
        Some(pair) => {
            let title = table.called("first_hour.");
            match table.table(reading, title, pair) {
                None => nothing(),
                Some(inner) => read_first_hour(reading, inner, treatments),
            }
        }
    };
    table.end(reading);
    BuildingElement::of_values(kind, values, first_hour)
}

/// The kind with its nodes. Where it is not known, so that the number of nodes is not either, the
/// treatments are read all the same.
fn read_kind(reading: &mut Reading, table: &mut Table, number: Option<u8>) -> Kind {
    let (nodes, gaps) = nodes_and_gaps(number.unwrap_or(TRANSPARENT));
    let mut row = |of: &Named, count| match number {
        Some(_) => table.numbers(reading, of, count),
        None => table.take(of.name).and(None),
    };
    let k_pli = row(&names::CAPACITY, nodes).unwrap_or(vec![f64::NAN; nodes]);
    let h_pli = row(&names::CONDUCTANCE, gaps).unwrap_or(vec![f64::NAN; gaps]);
    let delta_r = match table.take(names::TREATMENT.name) {
        Some(pair) => read_treatments(reading, table, number, pair),
        None => vec![],
    };
    Kind::of_parts(number.unwrap_or(TRANSPARENT), &k_pli, &h_pli, &delta_r)
}

fn read_treatments(
    reading: &mut Reading,
    table: &Table,
    number: Option<u8>,
    pair: &Pair,
) -> Vec<f64> {
    let mut delta_r = table.list(reading, &names::TREATMENT, pair);
    let name = table.called(names::TREATMENT.name);
    if delta_r.len() > MOST_TREATMENTS {
        let text = format!("{name} has {} values, more than {MOST_TREATMENTS}", delta_r.len());
        reading.fault(pair.0.start(), text);
        delta_r.truncate(MOST_TREATMENTS);
    } else if number.is_some_and(|kind| kind != TRANSPARENT) && !delta_r.is_empty() {
        reading.fault(pair.0.start(), format_args!("{name}: only a Transparent has treatments"));
    }
    delta_r
}

fn nothing() -> ElementHour {
    ElementHour::of_values([f64::NAN; 5], 0)
}

/// The element's part of the first hour. An element without treatments needs no `open`.
fn read_first_hour(reading: &mut Reading, mut table: Table, treatments: usize) -> ElementHour {
    let values = std::array::from_fn(|j| table.number(reading, &names::ELEMENT_HOUR[j]));
    let pair = match treatments {
        0 => table.take(OPEN),
        _ => table.needed(reading, OPEN),
    };
    let open = pair.and_then(|(key, value)| {
        let open: Open = read_open(reading, key, value)?;
        let byte = open.byte(Some(treatments));
        byte.map_err(|text| reading.fault(key.start(), table.called(&format!("{OPEN} {text}"))))
            .ok()
    });
    table.end(reading);
    ElementHour::of_values(values, open.unwrap_or(0))
}
