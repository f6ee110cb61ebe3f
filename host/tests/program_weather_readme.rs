//! hem-year weather over the sample: what the READMEs show of it is what it says.
mod common;

use common::Folder;
use std::fs;
use std::path::Path;

fn readme(name: &str) -> String {
    fs::read_to_string(Path::new(env!("CARGO_MANIFEST_DIR")).join(name)).unwrap()
}

/// The lines that a README shows behind a sentence.
#[track_caller]
fn shown(readme: &str, sentence: &str) -> String {
    let after = readme.split(sentence).nth(1).unwrap_or_else(|| panic!("{sentence}"));
    let block = after.lines().skip_while(|line| line.is_empty());
    block.map_while(|line| line.strip_prefix("    ")).map(|line| line.to_string() + "\n").collect()
}

#[test]
fn the_weather_of_the_readme_is_that_of_the_sample() {
    let (folder, readme) = (Folder::new("weather_readme"), readme("README.md"));
    folder.call(&["sample", "house"]).done();
    let overview = folder.call(&["weather", "house/terrace.epw"]).done();
    assert_eq!(shown(&readme, "`hem-year weather house/terrace.epw` says\n"), overview);

    let commands = shown(&readme, "with that of another place it is the house there:\n");
    let commands = commands.replace("\\\n", "");
    let call =
        |command: &str| folder.call(&command.split_whitespace().skip(1).collect::<Vec<_>>()).done();
    let said: Vec<String> = commands.lines().map(call).collect();
    assert_eq!((said.len(), shown(&readme, "The first says\n")), (2, said[0].clone()));
    assert!(said[1].contains("\nno faults: "), "{}", said[1]);
}

/// The refusal that is shown, and the example of the first README.
#[test]
fn the_words_of_the_readmes_are_those_of_the_program() {
    let folder = Folder::new("weather_readme_words");
    folder.call(&["sample", "."]).done();
    let mut lines: Vec<String> = folder.text("terrace.epw").lines().map(String::from).collect();
    let mut fields: Vec<&str> = lines[24].split(',').collect();
    fields[6] = "99.9";
    let missing = fields.join(",");
    let command = "hem-year weather london.epw terrace.csv london.csv --dry-bulb \
                   temp_ext_air,avg_air_supply_temp,temp_ext";
    assert!(readme("../README.md").contains(&format!("`{command}`")));
    folder.write("london.epw", &folder.read("terrace.epw"));
    let said = folder.call(&command.split(' ').skip(1).collect::<Vec<_>>()).done();
    assert!(!said.contains("left as before"), "{said}");
    lines[24] = missing;
    folder.write("london.epw", lines.join("\n").as_bytes());
    let answer = folder.call(&["weather", "london.epw", "--line", "17"]);
    let refusal = shown(&readme("README.md"), "23 where it is missing, as 99.9 and 9999 say:\n");
    assert_eq!(answer.errors(), format!("hem-year: {refusal}"));
}
