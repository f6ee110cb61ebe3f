//! The hours of a book as a table: what was given for each hour, and what came out.
use crate::calendar::Moment;
use crate::failure::Failure;
use crate::figures::{windows_used, HourFigures};
use crate::kind::TABLE_MARK;
use crate::load::{COOLING, HEATING};
use crate::places::nodes_by_element;
use crate::plant::PlantHour;
use crate::print::{Print, PROGRAM};
use crate::version::held_by_version;
use hem_zone::text::{rate_columns, FIXED_RATE};
use hem_zone::{Conditions, Demand, Entry, HeatBalance, HeldLimit, State};

/// Which columns are written beyond the usual ones.
#[derive(Clone, Copy, Debug, Default)]
pub struct Columns {
    /// The values of the heat balance, W.
    pub balance: bool,
    /// The temperature of each node, °C.
    pub nodes: bool,
}

/// A row's cells, each with the name of its column.
#[derive(Default)]
struct Row(Vec<(String, String)>);

impl Row {
    fn text(&mut self, name: impl Into<String>, value: String) {
        self.0.push((name.into(), value));
    }

    /// A number, written so that it reads back to the same bits.
    fn number(&mut self, name: impl Into<String>, value: f64) {
        self.text(name, value.to_string());
    }

    fn numbers(&mut self, values: &[(&str, f64)]) {
        values.iter().for_each(|(name, value)| self.number(*name, *value));
    }

    /// A number that an hour may be without.
    fn optional(&mut self, name: &str, value: Option<f64>) {
        self.text(name, value.map_or(String::new(), |v| v.to_string()));
    }
}

/// The whole table. It begins with lines that say what it is of, each behind a `#`.
pub fn table(print: &Print, columns: &Columns) -> Result<Vec<u8>, Failure> {
    let mut lines = csv::Writer::from_writer(beginning(print).into_bytes());
    let nodes_of = nodes_by_element(print.book.zone().head());
    let fixed_rates = print.book.entries().any(|entry| entry.conditions().has_fixed_rate());
    let hours = print.hours.iter().zip(&print.balances).zip(print.book.entries());
    for ((hour, heat), entry) in hours {
        let mut row = Row::default();
        times(&mut row, hour);
        inputs(&mut row, &print.elements, &entry.conditions(), fixed_rates);
        results(&mut row, hour, &entry, print.has_limits());
        if columns.nodes {
            nodes(&mut row, &print.elements, &nodes_of, &entry.state());
        }
        if columns.balance {
            balance(&mut row, heat);
        }
        if hour.number == 1 {
            put(&mut lines, row.0.iter().map(|(name, _)| name))?;
        }
        put(&mut lines, row.0.iter().map(|(_, value)| value))?;
    }
    lines.into_inner().map_err(|e| not_made(&e))
}

/// One line, with quotes where a cell needs them.
fn put<'a>(
    lines: &mut csv::Writer<Vec<u8>>,
    cells: impl Iterator<Item = &'a String>,
) -> Result<(), Failure> {
    lines.write_record(cells).map_err(|e| not_made(&e))
}

fn not_made(error: &dyn std::fmt::Display) -> Failure {
    Failure::File(format!("the table cannot be made: {error}"))
}

fn beginning(print: &Print) -> String {
    let mut text = format!("{TABLE_MARK}, {PROGRAM}\n# house: {}\n", print.name);
    text += &format!("# useful floor area: {} m2\n", print.area());
    text += &format!("# entries: {}\n", held_by_version(print.book));
    for (name, digits) in print.fingerprints.named() {
        text += &format!("# SHA-256 of {name}: {digits}\n");
    }
    text
}

// ---- the columns ----

fn times(row: &mut Row, hour: &HourFigures) {
    row.text("hour", hour.number.to_string());
    row.text("time", Moment(hour.start).iso());
}

/// What was given. Only a book with fixed rates has a column for them.
fn inputs(row: &mut Row, names: &[String], c: &Conditions, fixed_rates: bool) {
    row.numbers(&[
        ("delta_t_h", c.delta_t_h),
        ("temp_ext_air", c.temp_ext_air),
        ("gains_internal", c.gains_internal),
        ("gains_solar", c.gains_solar),
        ("frac_convective_heat", c.frac_convective_heat),
        ("frac_convective_cool", c.frac_convective_cool),
        ("temp_setpnt_heat", c.temp_setpnt_heat),
        ("temp_setpnt_cool", c.temp_setpnt_cool),
        ("temp_setpnt_cool_vent", c.temp_setpnt_cool_vent),
        ("avg_air_supply_temp", c.avg_air_supply_temp),
        ("gains_heat_cool_convective", c.gains_heat_cool_convective),
        ("gains_heat_cool_radiative", c.gains_heat_cool_radiative),
    ]);
    for (name, rate) in rate_columns(&c.ach) {
        if fixed_rates || name != FIXED_RATE {
            row.optional(name, rate);
        }
    }
    for (element, e) in names.iter().zip(&c.elements) {
        let mut put = |name: &str, value| row.number(format!("{element}.{name}"), value);
        put("temp_ext", e.temp_ext);
        put("i_sol_dir", e.i_sol_dir);
        put("i_sol_dif", e.i_sol_dif);
        put("f_sh_dir", e.f_sh_dir);
        put("f_sh_dif", e.f_sh_dif);
        row.text(format!("{element}.open"), open_treatments(e.open));
    }
}

/// The treatments that are open as hours have them: their numbers from 1, or `none`.
fn open_treatments(bits: u8) -> String {
    let numbers = (1..=8).filter(|number| bits >> (number - 1) & 1 == 1);
    let numbers: Vec<String> = numbers.map(|number: u32| number.to_string()).collect();
    match numbers.is_empty() {
        true => "none".into(),
        false => numbers.join(" "),
    }
}

fn results(row: &mut Row, hour: &HourFigures, entry: &Entry, limited: bool) {
    let Demand { ach_cooling: rate, ach_to_trigger_heating, .. } = entry.demand();
    row.text("entry_version", entry.version().to_string());
    row.number("heating_kWh", hour.heating);
    row.number("cooling_kWh", hour.cooling);
    if limited {
        plant(row, hour, entry);
    }
    row.number("ach_chosen", rate);
    row.text("windows_used", u8::from(windows_used(&entry.conditions(), rate)).to_string());
    row.optional("ach_to_trigger_heating", ach_to_trigger_heating);
    row.number("temp_internal_air", hour.air);
    row.number("temp_operative", hour.operative);
}

/// The limits of an hour, where it has some, and what became of its demand.
fn plant(row: &mut Row, hour: &HourFigures, entry: &Entry) {
    let of = |value: fn(&PlantHour) -> f64| hour.plant.as_ref().map(value);
    row.optional("heating_limit_W", of(|plant| plant.limits.heating));
    row.optional("cooling_limit_W", of(|plant| plant.limits.cooling));
    // −0 + 0 is 0: no cooling is no power.
    row.number("delivered_W", entry.delivered() + 0.0);
    let held = hour.plant.and_then(|plant| plant.held);
    row.text("limit_held", held.map_or(String::new(), |side| side_name(side).into()));
    row.optional("heating_unmet_kWh", of(|plant| plant.unmet(HeldLimit::Heating)));
    row.optional("cooling_unmet_kWh", of(|plant| plant.unmet(HeldLimit::Cooling)));
}

fn side_name(side: HeldLimit) -> &'static str {
    match side {
        HeldLimit::Heating => HEATING.name,
        HeldLimit::Cooling => COOLING.name,
    }
}

/// The nodes of each element from the outer to the inner surface; the air is a column of its own.
fn nodes(row: &mut Row, names: &[String], nodes_of: &[usize], state: &State) {
    let mut temps = state.temps().iter();
    for (element, count) in names.iter().zip(nodes_of) {
        for node in 1..=*count {
            let temp = temps.next().copied().unwrap_or(f64::NAN);
            row.number(format!("{element}.node_{node}"), temp);
        }
    }
}

fn balance(row: &mut Row, balance: &HeatBalance) {
    let parts = [
        ("air_node", balance.air_node.named()),
        ("internal_boundary", balance.internal_boundary.named()),
        ("external_boundary", balance.external_boundary.named()),
    ];
    for (part, values) in parts {
        values.iter().for_each(|(name, value)| row.number(format!("{part}.{name}"), *value));
    }
}
