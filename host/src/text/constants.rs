//! The values of a house file that stay the same in every hour: its table `[conditions]`.
use super::open::Open;
use super::plan::{Constant, Plan};
use super::table::{Reading, Table};
use super::tree::{Node, Pair};
use super::what::{hint, Key, What, OPEN};
use toml::Spanned;

/// Reads the table into the plan, whose names and treatments are known.
pub(crate) fn read_constants(reading: &mut Reading, mut table: Table, plan: &mut Plan) {
    for pair in table.left() {
        let (key, value) = pair;
        let name = key.get_ref();
        let element = plan.names.iter().position(|known| known == name);
        match (What::of_name(name), element, value.get_ref()) {
            (_, Some(element), Node::Table(_)) => {
                if let Some(inner) = table.table(reading, element_title(name), pair) {
                    read_of_element(reading, inner, element, plan);
                }
            }
            (Some(what), _, _) => {
                read_one(reading, &table, pair, Key { what, element: None }, plan);
            }
            _ => unknown(reading, pair, plan),
        }
    }
}

fn element_title(name: &str) -> String {
    format!("conditions, {name}: ")
}

fn unknown(reading: &mut Reading, (key, value): &Pair, plan: &Plan) {
    let name = key.get_ref();
    let text = match value.get_ref() {
        Node::Table(_) => {
            let hint = hint(name, plan.names.iter().map(String::as_str));
            format!("conditions: {name} is not an element of the house{hint}")
        }
        _ => {
            let hint = hint(name, What::all().map(What::name));
            format!("conditions: {name} is not known here{hint}")
        }
    };
    reading.fault(key.start(), text);
}

fn read_of_element(reading: &mut Reading, mut table: Table, element: usize, plan: &mut Plan) {
    for pair in table.left() {
        let name = pair.0.get_ref();
        match What::of_name(name).filter(|what| what.of_element()) {
            Some(what) => {
                read_one(reading, &table, pair, Key { what, element: Some(element) }, plan)
            }
            None => {
                let hint = hint(name, What::all_of_element().map(What::name));
                let title = element_title(&plan.names[element]);
                reading
                    .fault(pair.0.start(), format_args!("{title}{name} is not known here{hint}"));
            }
        }
    }
}

fn read_one(reading: &mut Reading, table: &Table, pair: &Pair, key: Key, plan: &mut Plan) {
    let constant = match key.what.named() {
        Some(named) => Some(Constant::Number(table.number_of(reading, named, pair))),
        None => read_open(reading, &pair.0, &pair.1).map(Constant::Open),
    };
    let Some(constant) = constant else { return };
    if let (Constant::Open(open), Some(element)) = (constant, key.element) {
        if let Err(text) = open.byte(plan.treatments_of(element)) {
            let title = element_title(&plan.names[element]);
            reading.fault(pair.0.start(), format_args!("{title}{OPEN} {text}"));
        }
    }
    plan.constants.push((key, constant));
}

/// Open treatments: a word, or the list of their numbers.
pub(crate) fn read_open(
    reading: &mut Reading,
    key: &Spanned<String>,
    value: &Spanned<Node>,
) -> Option<Open> {
    let open = match value.get_ref() {
        Node::Text(word) => Open::read(word),
        Node::Integer(number) => Open::of_numbers([Some(*number)].into_iter()),
        Node::Array(items) => Open::of_numbers(items.iter().map(|item| match item.get_ref() {
            Node::Integer(number) => Some(*number),
            _ => None,
        })),
        _ => None,
    };
    if open.is_none() {
        let written = reading.written(value);
        let text = format!(
            "{OPEN} is {written}, not \"none\", \"all\" or a list of the treatments that are open, each 1 to 4"
        );
        reading.fault(key.start(), text);
    }
    open
}
