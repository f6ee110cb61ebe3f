//! What a report says of a plant of limited power.
use crate::figures::HourFigures;
use crate::highest::LISTED;
use crate::load::{Load, COOLING, HEATING};
use crate::plant::Side;
use crate::words::{grouped, length_of_time, watts};
use std::fmt::Write;

/// Said where a limit held.
const UNCUT: &str = "\
Demand is told uncut: what each hour asks for as those before it left the house. What is left unmet is asked for again.
";

/// Both limits, and the hours in which each of them held; nothing where no hour has limits.
pub fn plant(hours: &[HourFigures]) -> String {
    let sides = [HEATING, COOLING].map(|load| Some((Side::of(hours, &load)?, load)));
    let sides: Vec<(Side, Load)> = sides.into_iter().flatten().collect();
    if sides.is_empty() {
        return String::new();
    }
    let time = hours.iter().filter(|hour| hour.plant.is_some()).map(|hour| hour.length).sum();
    let mut text = format!("\nThe plant, in {} with limits\n", length_of_time(time));
    sides.iter().for_each(|(side, load)| text += &line(side, load));
    if sides.iter().any(|(side, _)| !side.held.is_empty()) {
        text += UNCUT;
    }
    sides.iter().for_each(|(side, load)| text += &list(side, load));
    text
}

/// For a drawing: each limit, for how long it held, and what was left unmet.
pub fn in_short(hours: &[HourFigures]) -> Option<String> {
    let told = |load: &Load| {
        let side = Side::of(hours, load)?;
        let held = match side.held.is_empty() {
            true => "never held".into(),
            false => {
                format!("held in {}, {:.1} kWh unmet", length_of_time(side.time), side.unmet)
            }
        };
        Some(format!("{} limit of {} {held}", load.name, range(&side)))
    };
    Some(format!("{}   ·   {}", told(&HEATING)?, told(&COOLING)?))
}

/// What came of a limit, and below it when it held.
fn line(side: &Side, load: &Load) -> String {
    let held = match side.worst {
        None => "never held".into(),
        Some(hour) => format!(
            "held in {}, {} operative temperature in {} {:.1} °C ({})",
            length_of_time(side.time),
            load.worst,
            if side.held.len() == 1 { "it" } else { "them" },
            hour.operative,
            hour.date().trim()
        ),
    };
    format!(
        "{}    at most {}: {:.1} kWh delivered, {:.1} kWh unmet\n           {held}\n",
        load.title,
        range(side),
        side.delivered,
        side.unmet,
    )
}

/// The limit, or from which to which where hours have others.
fn range(side: &Side) -> String {
    let greatest = watts(side.greatest);
    match side.least == side.greatest {
        true => greatest,
        false => format!("{} to {greatest}", watts(side.least).trim_end_matches(" W")),
    }
}

/// The hours in which most was left unmet.
fn list(side: &Side, load: &Load) -> String {
    if side.held.is_empty() {
        return String::new();
    }
    let heading = format!("Most {} unmet", load.name);
    let mut text = format!("\n{heading:34} kW  limit kW  unmet kWh  setpoint  operative after\n");
    for (row, held) in side.held.iter().take(LISTED).enumerate() {
        let _ = writeln!(
            text,
            "{:2}  hour {:4}  {:>15} {:6.2} {:9.2} {:10.2} {:6.1} °C {:13.1} °C",
            row + 1,
            held.hour.number,
            held.hour.date(),
            (load.power)(held.hour),
            held.limit / 1000.0,
            held.unmet,
            (load.setpoint)(held.hour),
            held.hour.operative,
        );
    }
    if let Some(more @ 1..) = side.held.len().checked_sub(LISTED) {
        let more = grouped(more);
        let _ = writeln!(text, "    and {more} more; the column limit_held of --csv has them all");
    }
    text
}
