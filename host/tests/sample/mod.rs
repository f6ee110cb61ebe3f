//! The sample house, which has walls, windows, a ceiling and a floor.
use crate::common::Folder;

/// A folder with the house and its first hours; an hour's length goes by its place.
pub fn sample(name: &str, count: usize, length: fn(usize) -> f64) -> Folder {
    let folder = Folder::new(name);
    folder.call(&["sample", "."]).done();
    let all = folder.read("terrace.year");
    let hours = all.chunks(all.len() / 8760).take(count).enumerate();
    let year = hours.flat_map(|(i, hour)| [&length(i).to_be_bytes(), &hour[8..]].concat());
    folder.write("t.year", &year.collect::<Vec<u8>>());
    folder
}

/// Appends the hours of such a folder to its book, by a run with these words.
pub fn run(folder: &Folder, words: &[&str]) {
    folder.call(&[&["run", "terrace.head", "t.year", "t.book"], words].concat()).done();
}
