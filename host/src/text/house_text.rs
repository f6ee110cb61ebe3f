//! Writing a house file.
use super::house::{BASES, KINDS};
use super::number::{may_be_none, written, NONE};
use super::open::{numbers, words, Open};
use super::plan::{Constant, Plan};
use super::what::{What, OPEN};
use crate::conditions::{ElementHour, NO_CONTROL};
use crate::head::{BuildingElement, Head};
use crate::names::{self, Named};

const INTRODUCTION: &str = "\
# A house for hem-year. Each element is a table [element.NAME] with its kind: Opaque, AdjacentConditionedSpace,
# AdjacentUnconditionedSpaceSimple, Ground, Transparent or PartyWall. Its first_hour is what start-up repeats
# until the temperatures settle.
";

/// Where the comments begin.
const COMMENTS: usize = 46;

/// The TOML text of a head, with the names and constants of the plan.
pub fn write_house(head: &Head, plan: &Plan) -> String {
    let mut text = INTRODUCTION.to_string();
    if let Some(name) = plan.house_name() {
        line(&mut text, &format!("name = {}", quoted(name)), "of the house");
    }
    let basis = format!("temp_setpnt_basis = \"{}\"", BASES[head.temp_setpnt_basis as usize]);
    line(&mut text, &basis, "what setpoints are held against: \"air\" or \"operative\"");
    let limit = format!("start_up_limit = {}", head.start_up_limit);
    line(&mut text, &limit, names::START_UP_LIMIT.unit);
    for (named, value) in names::HEAD.iter().zip(head.values()) {
        number_line(&mut text, named, value);
    }
    constants(&mut text, plan);
    for (name, element) in plan.names.iter().zip(&head.elements) {
        text += &format!("\n[element.{}]\n", key(name));
        element_lines(&mut text, element);
    }
    text
}

fn line(text: &mut String, pair: &str, comment: &str) {
    *text += &format!("{pair:COMMENTS$}  # {comment}\n");
}

fn number_line(text: &mut String, named: &Named, value: f64) {
    line(text, &format!("{} = {}", named.name, number(named, value)), named.unit);
}

/// A number, or the word for no control.
fn number(named: &Named, value: f64) -> String {
    match value == NO_CONTROL && may_be_none(named.name) {
        true => format!("\"{NONE}\""),
        false => written(value),
    }
}

/// A key: bare where TOML allows it, else as a string.
fn key(name: &str) -> String {
    let bare = |c: char| c.is_ascii_alphanumeric() || c == '_' || c == '-';
    match !name.is_empty() && name.chars().all(bare) {
        true => name.to_string(),
        false => quoted(name),
    }
}

/// A text without control characters, in quotes.
fn quoted(text: &str) -> String {
    format!("\"{}\"", text.replace('\\', "\\\\").replace('"', "\\\""))
}

fn element_lines(text: &mut String, element: &BuildingElement) {
    let kind = format!("kind = \"{}\"", KINDS[element.kind.number() as usize]);
    *text += &format!("{kind}\n");
    for (named, value) in names::ELEMENT.iter().zip(element.values()) {
        number_line(text, named, value);
    }
    let (k_pli, h_pli, delta_r) = element.kind.parts();
    row(text, &names::CAPACITY, k_pli);
    row(text, &names::CONDUCTANCE, h_pli);
    if !delta_r.is_empty() {
        row(text, &names::TREATMENT, delta_r);
    }
    first_hour(text, &element.first_hour, delta_r.len());
}

fn row(text: &mut String, named: &Named, values: &[f64]) {
    let values: Vec<String> = values.iter().map(|value| written(*value)).collect();
    line(text, &format!("{} = [{}]", named.name, values.join(", ")), named.unit);
}

fn first_hour(text: &mut String, hour: &ElementHour, treatments: usize) {
    let pairs = names::ELEMENT_HOUR.iter().zip(hour.values());
    for (named, value) in pairs {
        line(text, &format!("first_hour.{} = {}", named.name, written(value)), named.unit);
    }
    if treatments > 0 {
        line(text, &format!("first_hour.{OPEN} = {}", open_list(hour.open)), OPEN_UNIT);
    }
}

const OPEN_UNIT: &str = "treatments that are open, in the order of delta_r from 1";

fn open_list(open: u8) -> String {
    format!("[{}]", numbers(open).collect::<Vec<_>>().join(", "))
}

/// The table of what stays the same in every hour, if there is something.
fn constants(text: &mut String, plan: &Plan) {
    if plan.constants.is_empty() {
        return;
    }
    *text += "\n# What stays the same in every hour; the rest is in the columns of the hours.\n[conditions]\n";
    for (at, constant) in &plan.constants {
        let of = at.element.map_or(String::new(), |e| format!("{}.", key(&plan.names[e])));
        let pair = format!("{of}{} = {}", at.what.name(), constant_text(at.what, constant));
        line(text, &pair, at.what.named().map_or(OPEN_UNIT, |named| named.unit));
    }
}

fn constant_text(what: What, constant: &Constant) -> String {
    match (what.named(), constant) {
        (Some(named), Constant::Number(value)) => number(named, *value),
        (_, Constant::Open(Open::These(0))) => format!("\"{}\"", words(0)),
        (_, Constant::Open(Open::These(open))) => open_list(*open),
        _ => "\"all\"".into(),
    }
}
