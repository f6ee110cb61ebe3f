//! `hem-year hours`: conditions from a table of hours.
use crate::failure::Failure;
use crate::files;
use crate::house::must_be_apart;
use crate::inputs::{self, House};
use crate::kind::Kind;
use crate::output;
use crate::words;
use std::path::Path;

pub fn hours(csv: &Path, year: &Path, house: Option<&Path>, force: bool) -> Result<(), Failure> {
    let text = files::read(csv)?;
    inputs::must_not_be_utf16(csv, &text)?;
    if !inputs::is_text(&text) {
        return Err(Failure::file(csv, "is not text"));
    }
    must_be_apart(csv, year)?;
    let house = match house {
        None => None,
        Some(path) => {
            must_be_apart(path, year)?;
            Some(House::read(path)?)
        }
    };
    let made = inputs::hours_of_text(csv, &text, house.as_ref())?;
    output::put(year, &Kind::Year, force, &made.concat())?;
    files::print(&format!("{}: the conditions of {}\n", year.display(), words::hours(made.len())))
}
