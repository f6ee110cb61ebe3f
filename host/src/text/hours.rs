//! Reading a table of hours.
use super::assemble::{Assembly, Field};
use super::csv_lines::CsvLines;
use super::faults::Faults;
use super::heading::{read_heading, Column, Headed};
use super::hour_numbers::HourNumbers;
use super::number::{self, may_be_none, out_of_range, shown, NONE};
use super::open::Open;
use super::plan::{Constant, Plan};
use super::what::{Key, What};
use crate::book::MOST_ENTRIES;
use crate::conditions::{Conditions, NO_CONTROL};
use crate::names::HOUR;
use csv::ByteRecord;

/// The hours of a CSV text; none where it has a fault. `file` is its name, for the faults. Without a
/// plan each element needs a column of its own, and their order is that of their first columns.
pub fn read_hours(
    file: &str,
    text: &[u8],
    plan: Option<&Plan>,
    faults: &mut Faults,
) -> Option<Vec<Conditions>> {
    let before = faults.count();
    let mut lines = CsvLines::new(text);
    let mut plan = plan.cloned();
    let Some((line, record)) = lines.next() else {
        faults.add(format_args!("{file}:1"), "there is no heading line");
        return None;
    };
    let place = format!("{file}:{line}");
    let columns = read_heading(&place, record, &mut plan, faults)?;
    let plan = plan?;
    if plan.names.is_empty() {
        faults.add(place, "there is no column of an element, and no house is given");
        return None;
    }
    let assembly = Assembly::new(&place, &columns, &plan, faults);
    let known = faults.count() == before;
    let numbers = HourNumbers::default();
    let mut table = Rows { file, columns: &columns, faults, line: 0, numbers };
    let mut hours = vec![];
    let mut count = 0;
    while let Some((line, record)) = lines.next() {
        if is_empty(record) {
            continue;
        }
        table.line = line;
        count += 1;
        if count == MOST_ENTRIES + 1 {
            table.tell(format!("this is hour {count}, where a book holds at most 8,784"));
        }
        let Some(fields) = table.fields(record) else { continue };
        // Where the heading is wrong already, only the fields are looked at.
        if known && count <= MOST_ENTRIES {
            let hour = assembly.conditions(&fields, &plan, |text| table.tell(text));
            table.compare_setpoints(&hour, &assembly, count == 1);
            hours.push(hour);
        }
    }
    if count == 0 {
        faults.add(place, "there is no hour below the heading");
    }
    (faults.count() == before).then_some(hours)
}

/// The line of each hour of a CSV text, as an editor counts, from 1.
pub fn hour_lines(text: &[u8]) -> Vec<usize> {
    let mut lines = CsvLines::new(text);
    let (mut found, _heading) = (vec![], lines.next().is_some());
    while let Some((line, record)) = lines.next() {
        if !is_empty(record) {
            found.push(line);
        }
    }
    found
}

/// A spreadsheet may leave lines of commas behind.
fn is_empty(record: &ByteRecord) -> bool {
    record.iter().all(<[u8]>::is_empty)
}

/// The rows below the heading.
struct Rows<'a> {
    file: &'a str,
    columns: &'a [Headed],
    faults: &'a mut Faults,
    line: usize,
    /// Those of the hours, where there is a column for them.
    numbers: HourNumbers,
}

impl Rows<'_> {
    fn tell(&mut self, text: String) {
        self.faults.add(format_args!("{}:{}", self.file, self.line), text);
    }

    /// The fields of a line. Empty ones behind the last column do no harm.
    fn fields(&mut self, record: &ByteRecord) -> Option<Vec<Field>> {
        let columns = self.columns;
        let more = record.iter().skip(columns.len()).any(|field| !field.is_empty());
        if record.len() < columns.len() || more {
            let fields = match record.len() {
                1 => "there is 1 field".into(),
                n => format!("there are {n} fields"),
            };
            self.tell(format!("{fields}, where the heading has {}", columns.len()));
            return None;
        }
        Some(record.iter().zip(columns).map(|(bytes, headed)| self.field(bytes, headed)).collect())
    }

    fn field(&mut self, bytes: &[u8], headed: &Headed) -> Field {
        let text = &*String::from_utf8_lossy(bytes);
        match headed.column {
            Column::Ignored => None,
            Column::Empty => {
                if !text.is_empty() {
                    self.tell(format!("{} stands in a column without a heading", shown(text)));
                }
                None
            }
            Column::Number => {
                let fault = self.numbers.fault(text);
                fault.into_iter().for_each(|fault| self.tell(fault));
                None
            }
            Column::Value(Key { what: What::Rate(_), .. }) if text.is_empty() => None,
            Column::Value(Key { what: What::Open, .. }) => self.open(text, headed),
            Column::Value(Key { what, .. }) => self.value(text, headed, what),
        }
    }

    fn open(&mut self, text: &str, headed: &Headed) -> Field {
        let open = Open::read(text);
        if open.is_none() {
            let (name, text) = (&headed.name, shown(text));
            self.tell(format!(
                "{name} is {text}, not none, all or the numbers of the treatments that are open, 1 to 4"
            ));
        }
        open.map(Constant::Open)
    }

    /// A number in its range, or NaN where a fault was told.
    fn value(&mut self, text: &str, headed: &Headed, what: What) -> Field {
        let named = what.named()?;
        if text == NONE && may_be_none(named.name) {
            return Some(Constant::Number(NO_CONTROL));
        }
        match number::read(text) {
            Some(value) if named.range.contains(value) => return Some(Constant::Number(value)),
            Some(_) => self.tell(out_of_range(&headed.name, text, named)),
            None => {
                let or_none = if may_be_none(named.name) { " or none" } else { "" };
                let name = &headed.name;
                let hint = match number::read(&text.replace(',', ".")) {
                    Some(_) => "; its decimal sign has to be a point",
                    None => "",
                };
                let shown = shown(text);
                self.tell(format!(
                    "{name} is {shown}, not a number{or_none} ({}){hint}",
                    named.range
                ));
            }
        }
        Some(Constant::Number(f64::NAN))
    }

    /// The engine refuses setpoints that cross (10 and 11).
    fn compare_setpoints(&mut self, hour: &Conditions, assembly: &Assembly, first: bool) {
        let heat = hour.temp_setpnt_heat;
        let others =
            [(7, "cooling", hour.temp_setpnt_cool), (8, "ventilation", hour.temp_setpnt_cool_vent)];
        for (place, name, setpoint) in others {
            if setpoint < heat && (first || !assembly.setpoints_are_constant(place)) {
                let (of, heating) = (HOUR[place].name, HOUR[6].name);
                self.tell(format!(
                    "{of} is {}, below {heating}, which is {}: the {name} setpoint must not be below the heating setpoint",
                    number::cell(&HOUR[place], setpoint),
                    number::short(heat),
                ));
            }
        }
    }
}
