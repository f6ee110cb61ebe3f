//! `hem-year sample`: a small terrace house and a year of its hours.
use crate::failure::Failure;
use crate::files;
use crate::output;
use crate::sample_epw::epw;
use crate::terrace::{conditions, house, names};
use hem_zone::text::{compact, write_house, Plan};
use hem_zone::Conditions;
use std::fs;
use std::path::Path;

const HOURS: usize = 8760;

/// The files of the sample: the house and its hours as text, the bytes that the text makes, and the weather
/// of the hours.
fn sample_files() -> [(&'static str, Vec<u8>); 5] {
    let hours: Vec<Conditions> = (0..HOURS).map(conditions).collect();
    let plan = Plan::with_names(&house(), names()).with_house_name("Terrace house");
    let (plan, csv) = compact(&hours, &plan);
    [
        ("terrace.toml", write_house(&house(), &plan).into_bytes()),
        ("terrace.csv", csv.into_bytes()),
        ("terrace.head", house().to_bytes()),
        ("terrace.year", hours.iter().flat_map(Conditions::to_bytes).collect()),
        ("terrace.epw", epw(HOURS).into_bytes()),
    ]
}

/// A file that is there already is not overwritten; one that is the sample's own is left, so that a
/// sample that was interrupted is completed.
pub fn sample(dir: &Path) -> Result<(), Failure> {
    fs::create_dir_all(dir).map_err(|e| Failure::io("be made a folder", dir, e))?;
    let mut missing = vec![];
    for (name, bytes) in sample_files() {
        let path = dir.join(name);
        match fs::symlink_metadata(&path) {
            Err(_) => missing.push((path, bytes)),
            Ok(_) if files::read(&path)? == bytes => {}
            Ok(_) => return Err(Failure::file(&path, "exists already and is not overwritten")),
        }
    }
    for (path, bytes) in &missing {
        output::create(path, bytes)?;
    }
    let place = |name: &str| dir.join(name).display().to_string();
    files::print(&format!(
        "{} has a house of {} elements, {} the conditions of {HOURS} hours\n\
         {} and {} are the same in bytes\n\
         {} is the weather of these hours\n",
        place("terrace.toml"),
        names().len(),
        place("terrace.csv"),
        place("terrace.head"),
        place("terrace.year"),
        place("terrace.epw"),
    ))
}
