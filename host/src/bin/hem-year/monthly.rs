//! The months of a report.
use crate::calendar::months;
use crate::figures::HourFigures;
use crate::load::{Load, COOLING, HEATING};
use crate::print::Print;
use crate::sums::Sums;
use crate::warmth::THRESHOLDS;

/// A month, or what lies past the year.
pub struct Month {
    pub name: &'static str,
    pub sums: Sums,
}

/// The name of what lies past the year.
pub const LATER: &str = "later";

/// Each month that hours lie in, and what lies past the year.
pub fn by_month(hours: &[HourFigures]) -> Vec<Month> {
    let day = |number: u32| f64::from(number) * 24.0;
    let later = (LATER, day(365)..f64::MAX);
    let times = months().map(|(name, first, end)| (name, day(first)..day(end))).chain([later]);
    let sums = times.map(|(name, time)| {
        let mut sums = Sums::default();
        hours.iter().for_each(|hour| sums.add(hour, hour.share_in(&time)));
        Month { name, sums }
    });
    sums.filter(|month| month.sums.length > 0.0).collect()
}

/// A column: three lines of heading, how wide it is, its decimals, and its value.
struct Column {
    heading: [&'static str; 3],
    width: usize,
    decimals: usize,
    value: Box<dyn Fn(&Sums) -> f64>,
}

fn column(
    heading: [&'static str; 3],
    decimals: usize,
    value: impl Fn(&Sums) -> f64 + 'static,
) -> Column {
    let width = heading.iter().map(|line| line.chars().count() + 2).fold(10, usize::max);
    Column { heading, width, decimals, value: Box::new(value) }
}

/// The columns of a book with these sums. Where a limit held, the energy of that load is what was delivered,
/// its power what was asked for, and two columns more account for what was not delivered.
fn columns(sums: &Sums) -> Vec<Column> {
    let (delivered, asked) = ("delivered", "asked for");
    let of = |load: &'static Load, peak: fn(&Sums) -> f64| {
        let [energy, power] = if load.was_short(sums) { [delivered, asked] } else { ["", ""] };
        [
            column([load.title, energy, "kWh"], 1, move |sums| load.delivered(sums)),
            column(["highest", power, "kW"], 2, peak),
        ]
    };
    let short = |load: &'static Load| {
        load.was_short(sums).then(|| {
            [
                column([load.title, "limit held", "h"], 1, move |sums| (load.short)(sums).held),
                column([load.title, "unmet", "kWh"], 1, move |sums| (load.short)(sums).unmet),
            ]
        })
    };
    let conditions = [
        column(["Windows", "", "h"], 1, |sums| sums.windows),
        column(["External", "", "mean °C"], 1, |sums| sums.external.mean()),
        column(["Operative", "", "mean °C"], 1, |sums| sums.operative.mean()),
    ];
    let warm = THRESHOLDS.iter().enumerate().map(|(place, threshold)| {
        column([threshold.heading, "", "h"], 1, move |sums| sums.warm[place])
    });
    let loads = of(&HEATING, |sums| sums.heating_peak)
        .into_iter()
        .chain(of(&COOLING, |sums| sums.cooling_peak));
    let short = [short(&HEATING), short(&COOLING)].into_iter().flatten().flatten();
    loads.chain(conditions).chain(warm).chain(short).collect()
}

/// A line for each month that the book reaches, and one for what lies past the year.
pub fn monthly(print: &Print) -> String {
    let columns = columns(&print.sums);
    let mut text = String::from("\n");
    for line in 0..3 {
        let words = columns.iter().map(|c| format!("{:>1$}", c.heading[line], c.width));
        let words: String = words.collect();
        if !words.trim().is_empty() {
            text += format!("{:7}{words}", "").trim_end();
            text.push('\n');
        }
    }
    for Month { name, sums } in &print.months {
        let values =
            columns.iter().map(|c| format!(" {:1$.2$}", (c.value)(sums), c.width - 1, c.decimals));
        text += &format!("{name:7}{}\n", values.collect::<String>());
    }
    text
}
