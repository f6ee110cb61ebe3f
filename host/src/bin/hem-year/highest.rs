//! The highest loads of a report.
use crate::figures::HourFigures;
use crate::load::Load;
use crate::print::Print;

/// How many hours of a kind a report lists.
pub const LISTED: usize = 10;

/// The hours of greatest power, the earlier first where they are equal; hours without any are left out.
fn by_power<'a>(hours: &'a [HourFigures], load: &Load) -> Vec<&'a HourFigures> {
    let power = load.power;
    let mut loaded: Vec<&HourFigures> = hours.iter().filter(|h| power(h) > 0.0).collect();
    loaded.sort_by(|a, b| power(b).total_cmp(&power(a)));
    loaded
}

/// The hours of greatest demand. Where a limit held, it is said that this is not what was delivered.
pub fn highest(print: &Print, load: &Load) -> String {
    let loaded = by_power(&print.hours, load);
    if loaded.is_empty() {
        return format!("\nHighest {}: none\n", load.name);
    }
    let asked = if load.was_short(&print.sums) { " asked for" } else { "" };
    let heading = format!("Highest {}{asked}", load.name);
    let mut text = format!("\n{heading:34}kW   external  setpoint  operative before\n");
    for (row, hour) in loaded.iter().take(LISTED).enumerate() {
        text += &line(row + 1, hour, load);
    }
    text + &setback_note(&loaded, load)
}

fn line(row: usize, hour: &HourFigures, load: &Load) -> String {
    let note = if (load.after_setback)(hour) { load.word } else { "" };
    let line = format!(
        "{row:2}  hour {:4}  {:>15} {:6.2} {:8.1} °C {:6.1} °C {:14.1} °C  {note}",
        hour.number,
        hour.date(),
        (load.power)(hour),
        hour.external,
        (load.setpoint)(hour),
        hour.before,
    );
    line.trim_end().to_string() + "\n"
}

/// What the word behind an hour means, and the highest hour without it.
fn setback_note(loaded: &[&HourFigures], load: &Load) -> String {
    if !loaded.iter().take(LISTED).any(|hour| (load.after_setback)(hour)) {
        return String::new();
    }
    let steady = loaded.iter().find(|hour| !(load.after_setback)(hour));
    let steady = steady.map_or("no other hour has any".into(), |hour| {
        format!("the highest other hour has {:.2} kW ({})", (load.power)(hour), hour.date().trim())
    });
    format!("    {}: {}; {steady}\n", load.word, load.explained)
}
