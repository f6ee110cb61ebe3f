//! What a report says of convection: how much heat went from the air into walls, ceilings and floors.
use crate::convection::DIRECTIONS;
use crate::monthly::Month;
use crate::print::Print;
use crate::words::energy;

const HEADING: &str = "\
Convection: heat from the air into the inner surfaces, by the direction in which it flowed
";

/// Said of all directions together.
const TOGETHER: &str = "below 0 the surfaces gave more to the air than they took";

/// The sums of all hours with what they are of, and by month.
pub fn convection(print: &Print) -> String {
    let mut text = format!("\n{HEADING}");
    let sums = &print.sums.convection;
    for (direction, between) in DIRECTIONS.iter().zip(print.surfaces.by_direction()) {
        text += &line(direction.title, (direction.heat)(sums), &between);
    }
    text += &line("Together", sums.total, TOGETHER);
    text + &by_month(&print.months)
}

fn line(title: &str, heat: f64, words: &str) -> String {
    format!("{title:10} {:>10} kWh  {words}\n", energy(heat))
}

/// A line for each direction, where there is more than one month.
fn by_month(months: &[Month]) -> String {
    if months.len() < 2 {
        return String::new();
    }
    let names = months.iter().map(|month| month.name.to_string()).collect();
    let mut lines: Vec<(&str, Vec<String>)> = vec![("kWh", names)];
    for direction in &DIRECTIONS {
        let heats = months.iter().map(|month| energy((direction.heat)(&month.sums.convection)));
        lines.push((direction.title, heats.collect()));
    }
    let cells = lines.iter().flat_map(|(_, cells)| cells);
    let width = cells.map(|cell| cell.len() + 2).fold(7, usize::max);
    let aligned = |cells: Vec<String>| -> String {
        cells.iter().map(|cell| format!("{cell:>width$}")).collect()
    };
    let lines = lines.into_iter().map(|(title, cells)| format!("{title:10}{}\n", aligned(cells)));
    "\n".to_string() + &lines.collect::<String>()
}
