//! The reasons of all hours of a book, counted by month.
use crate::calendar::Moment;
use crate::monthly::LATER;
use crate::why_told::controlled;
use crate::words::grouped;
use hem_zone::{Basis, Book, Head, Load, RateReason, Refusal};

const REASONS: usize = RateReason::ALL.len();
const LOADS: usize = Load::ALL.len();

/// What a reason is called: at the head of its column, and in plain words.
fn named(reason: RateReason) -> (&'static str, &'static str) {
    match reason {
        RateReason::NoChoice => {
            ("no choice", "the rate is fixed, or the same with windows open and closed")
        }
        RateReason::NotAboveVentilationSetpoint => {
            ("not warm", "windows stay closed: it would not be above the ventilation setpoint")
        }
        RateReason::NotAboveSupply => {
            ("warm air", "windows stay closed: the air would not be above the supplied air")
        }
        RateReason::WindowsDoNotCool => {
            ("no use", "windows stay closed: open they would not make it cooler")
        }
        RateReason::StillAboveCoolingSetpoint => (
            "too little",
            "windows stay closed: opened they would leave it above the cooling setpoint",
        ),
        RateReason::WindowsEnough => ("enough", "windows are opened, and are enough"),
    }
}

/// What is said below them, of the temperature that setpoints are of.
fn note(controlled: &str) -> String {
    format!(
        "\
An hour has the first of these that holds, by {controlled} at its end without the
heating or cooling that it asks for, and counts in the month in which it begins. The last three lines
are what hours ask for.
"
    )
}

/// What hours ask for, in the order of their rows.
const ASKED_FOR: [(Load, &str); LOADS] =
    [(Load::Heating, "  heating"), (Load::Cooling, "  cooling"), (Load::Neither, "  neither")];

/// How many hours have each reason.
#[derive(Clone, Copy, Default)]
struct Row([usize; REASONS]);

impl Row {
    fn add(&mut self, reason: RateReason) {
        self.0[reason.number() as usize - 1] += 1;
    }

    fn all(&self) -> usize {
        self.0.iter().sum()
    }
}

/// The hours of a book by reason.
pub struct Counts {
    /// By month, in the order of the year, with its name; each has an hour.
    months: Vec<(&'static str, Row)>,
    /// By what they ask for, in the order of `Load::ALL`.
    loads: [Row; LOADS],
    total: Row,
    an_hour_long: bool,
    basis: Basis,
}

impl Counts {
    /// Each hour counts in the month in which it begins.
    pub fn of(book: &Book) -> Result<Self, Refusal> {
        let mut counts = Self {
            months: vec![],
            loads: Default::default(),
            total: Row::default(),
            an_hour_long: true,
            basis: Head::from_bytes(book.zone().head())?.temp_setpnt_basis,
        };
        let (mut before, mut start) = (book.zone().start_up()?, 0.0);
        for entry in book.entries() {
            let why = book.zone().why(&before, entry.conditions_bytes())?;
            counts.month(Moment(start).month().unwrap_or(LATER)).add(why.reason);
            counts.loads[why.load as usize].add(why.reason);
            counts.total.add(why.reason);
            let length = entry.conditions().delta_t_h;
            counts.an_hour_long &= length == 1.0;
            start += length;
            before = entry.state();
        }
        Ok(counts)
    }

    /// The row of a month: hours come in order, so it is the last one or a new one.
    fn month(&mut self, name: &'static str) -> &mut Row {
        if self.months.last().is_none_or(|(last, _)| *last != name) {
            self.months.push((name, Row::default()));
        }
        let last = self.months.len() - 1;
        &mut self.months[last].1
    }

    /// What is counted: entries are steps where they are not all an hour long.
    pub fn thing(&self) -> &'static str {
        if self.an_hour_long {
            "hour"
        } else {
            "step"
        }
    }

    /// The table, and what its columns are.
    pub fn text(&self) -> String {
        if self.months.is_empty() {
            return String::new();
        }
        let mut text = format!("\n{}", heading());
        for (name, row) in &self.months {
            text += &line(name, row);
        }
        text += &line("Total", &self.total);
        for (load, name) in ASKED_FOR {
            text += &line(name, &self.loads[load as usize]);
        }
        text.push('\n');
        for (name, words) in RateReason::ALL.map(named) {
            text += &format!("{name:11} {words}\n");
        }
        text + &note(controlled(self.basis))
    }
}

fn heading() -> String {
    let names = RateReason::ALL.map(|reason| format!("{:>12}", named(reason).0));
    format!("{:9}{}{:>9}\n", "", names.concat(), "all")
}

fn line(name: &str, row: &Row) -> String {
    let cells = row.0.map(|hours| format!("{:>12}", grouped(hours)));
    format!("{name:9}{}{:>9}\n", cells.concat(), grouped(row.all()))
}
