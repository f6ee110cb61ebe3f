//! `hem-year weather`: what a weather file (EPW) says, and its weather put into hours.
use crate::failure::Failure;
use crate::files;
use crate::given::Words;
use crate::inputs;
use crate::kind::Kind;
use crate::output::{self, Output};
use crate::weather_columns::{self, Quantity};
use crate::weather_into::{self, Put};
use crate::weather_overview::Overview;
use crate::weather_table;
use hem_zone::{weather_lines, Refusal};
use std::path::Path;

/// Lines of a weather file before the first hour.
const HEADERS: usize = 8;

/// The numbers of one line, an overview of all lines, or the weather put into hours.
pub fn weather(words: &Words) -> Result<(), Failure> {
    words.excludes("line", "csv")?;
    let epw = words.path(0);
    match (words.path_if_given(1), words.path_if_given(2)) {
        (Some(_), None) => Err(words.wrong("OUT is missing")),
        (Some(hours), Some(out)) => {
            must_not_have(words, &["line", "csv"], "is of no use with HOURS and OUT")?;
            let (columns, house) = (weather_columns::named(words)?, words.file("head"));
            let force = words.has("force");
            weather_into::put(words, &Put { epw, hours, out, columns, house, force })
        }
        (None, _) => {
            let only = ["dry-bulb", "direct", "diffuse", "head"];
            must_not_have(words, &only, "is of use only with HOURS and OUT")?;
            match words.number_of("line", u64::MAX)? {
                Some(number) => line(epw, number),
                None => overview(epw, words.file("csv"), words.has("force")),
            }
        }
    }
}

fn must_not_have(words: &Words, options: &[&str], why: &str) -> Result<(), Failure> {
    match options.iter().find(|option| words.is_given(option)) {
        Some(option) => Err(words.wrong(format_args!("--{option} {why}"))),
        None => Ok(()),
    }
}

/// Where a line stands: the file, and the line of the file as an editor counts.
pub fn place(path: &Path, line: u64) -> String {
    format!("{}:{}", path.display(), u128::from(line) + HEADERS as u128)
}

/// What is said where the last header line has the weather of an hour. The engine does not look at headers, so
/// that of a file without all of them the first hours are lost, and all others come too early. Other headers may
/// look like an hour, as that of ground temperatures does.
pub fn header_told(path: &Path, file: &[u8]) -> String {
    let last = file.split_inclusive(|byte| *byte == b'\n').nth(HEADERS - 1).unwrap_or_default();
    let as_line_1 = [&b"\n".repeat(HEADERS), last].concat();
    match hem_zone::weather(&as_line_1, 1) {
        Ok(_) => format!(
            "{}: its eighth line, a header, has the weather of an hour: are headers missing?\n",
            path.display()
        ),
        Err(_) => String::new(),
    }
}

/// Lines that the engine refuses. A file with two bytes for each letter is told as such, and one whose lines end
/// in another way.
pub fn refused(path: &Path, file: &[u8], sentence: String) -> Failure {
    let returns_alone = file.contains(&b'\r') && !file.contains(&b'\n');
    match inputs::must_not_be_utf16(path, file) {
        Err(failure) => failure,
        Ok(()) if returns_alone => {
            let needed = "its lines end with CR alone, and LF or CR LF is needed";
            Failure::Refused(format!("{sentence}; {needed}"))
        }
        Ok(()) => Failure::Refused(sentence),
    }
}

/// The numbers of a line, each in full.
fn line(path: &Path, number: u64) -> Result<(), Failure> {
    let file = files::read(path)?;
    let place = place(path, number);
    let found = hem_zone::weather(&file, number)
        .map_err(|refusal| refused(path, &file, format!("{place}: {refusal}")))?;
    let mut text = format!("{place}: line {number} after the headers\n");
    for quantity in Quantity::ALL {
        text += &format!("{:20}{} {}\n", quantity.title(), quantity.of(&found), quantity.unit());
    }
    files::print(&text)
}

/// What all lines say, and a table of them where one is asked for.
fn overview(path: &Path, csv: Option<&Path>, force: bool) -> Result<(), Failure> {
    let csv = csv.map(|to| match files::same_file(path, to) {
        true => Err(Failure::file(to, "is the weather file, which a table does not replace")),
        false => Output::check(to, &Kind::WeatherTable, force),
    });
    let csv = csv.transpose()?;
    let file = files::read(path)?;
    let mut overview = Overview::default();
    let mut table = csv.is_some().then(|| weather_table::beginning(path, &file));
    for answer in weather_lines(&file) {
        let number = overview.add(path, &answer);
        if let Some(table) = &mut table {
            weather_table::add(table, number, &answer);
        }
    }
    if let Some(sentence) = overview.nothing_read(path, || first(&file)) {
        return Err(refused(path, &file, sentence));
    }
    if let (Some(csv), Some(table)) = (csv, &table) {
        output::put_all(vec![(csv, table.as_bytes())])?;
    }
    files::print(&(overview.text(path) + &header_told(path, &file)))
}

/// What the engine says of line 1.
fn first(file: &[u8]) -> Option<Refusal> {
    hem_zone::weather(file, 1).err()
}
