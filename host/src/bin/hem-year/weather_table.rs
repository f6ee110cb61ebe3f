//! The lines of a weather file as a table.
use crate::fingerprint;
use crate::kind::WEATHER_TABLE_MARK;
use crate::print::PROGRAM;
use crate::weather_columns::Quantity;
use hem_zone::{Refusal, Weather};
use std::fmt::Write;
use std::path::Path;

/// What the table begins with: lines that say what it is of, each behind a `#`, and the heading.
pub fn beginning(path: &Path, file: &[u8]) -> String {
    // A name is one line.
    let name = path.display().to_string().replace(char::is_control, " ");
    let digits = fingerprint::of(file);
    format!(
        "{WEATHER_TABLE_MARK}, {PROGRAM}\n# file: {name}\n# SHA-256 of file: {digits}\n\
         line,dry_bulb,direct_normal,diffuse_horizontal,refused\n"
    )
}

/// Adds a line: its numbers, written so that they read back to the same bits, or the number that it is
/// refused with.
pub fn add(table: &mut String, line: u64, answer: &Result<Weather, Refusal>) {
    let _ = match answer {
        Ok(weather) => {
            let [dry_bulb, direct, diffuse] = Quantity::ALL.map(|quantity| quantity.of(weather));
            writeln!(table, "{line},{dry_bulb},{direct},{diffuse},")
        }
        Err(refusal) => writeln!(table, "{line},,,,{}", refusal.number()),
    };
}
