//! `hem-year house`: a head from a house file.
use crate::failure::Failure;
use crate::files;
use crate::inputs::{self, House};
use crate::kind::Kind;
use crate::output;
use crate::words::count;
use std::path::Path;

pub fn house(text: &Path, head: &Path, force: bool) -> Result<(), Failure> {
    let bytes = files::read(text)?;
    inputs::must_not_be_utf16(text, &bytes)?;
    if !inputs::is_text(&bytes) {
        return Err(Failure::file(text, "is not text"));
    }
    must_be_apart(text, head)?;
    let house = House::of_text(text, inputs::utf8(text, &bytes)?)?;
    output::put(head, &Kind::Head, force, house.zone.head())?;
    let elements = count(house.zone.layout().elements(), "element");
    files::print(&format!("{}: the head of a house of {elements}\n", head.display()))
}

/// What is written must not take the place of what it is made from, even where that is asked for.
pub fn must_be_apart(from: &Path, to: &Path) -> Result<(), Failure> {
    match files::same_file(from, to) {
        true => Err(Failure::file(to, "is the file that is read, too")),
        false => Ok(()),
    }
}
