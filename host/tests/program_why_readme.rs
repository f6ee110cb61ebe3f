//! hem-year why over the sample house: what the READMEs show of it is what it says.
use std::fs;
use std::path::{Path, PathBuf};
use std::process::Command;

fn top() -> PathBuf {
    Path::new(env!("CARGO_MANIFEST_DIR")).join("..")
}

/// What the program prints, run at the top of the repository.
fn hem_year(words: &[&str]) -> String {
    let program =
        Command::new(env!("CARGO_BIN_EXE_hem-year")).args(words).current_dir(top()).output();
    let done = program.unwrap();
    assert!(done.status.success(), "{words:?}: {}", String::from_utf8_lossy(&done.stderr));
    String::from_utf8(done.stdout).unwrap()
}

/// The lines that a README shows behind a sentence.
fn shown(readme: &str, sentence: &str) -> Vec<String> {
    let after = readme.split(sentence).nth(1).unwrap_or_else(|| panic!("{sentence}"));
    let block = after.lines().skip(1).skip_while(|line| line.is_empty());
    block.map_while(|line| line.strip_prefix("    ").map(String::from)).collect()
}

/// A text as one line.
fn joined(text: &str) -> String {
    text.split_whitespace().collect::<Vec<_>>().join(" ")
}

#[test]
fn the_reasons_of_the_readme_are_those_of_the_sample() {
    let folder = Path::new(env!("CARGO_TARGET_TMPDIR")).join("why_readme");
    fs::create_dir_all(&folder).unwrap();
    let book = folder.join("terrace.book");
    let _ = fs::remove_file(&book);
    let book = book.to_str().unwrap();
    hem_year(&["run", "examples/terrace.toml", "examples/terrace.csv", book]);
    let readme = fs::read_to_string(top().join("host/README.md")).unwrap();

    let sentence = |hour: &str| hem_year(&["why", book, hour]);
    let of = |words: &str| joined(&shown(&readme, words).join(" "));
    assert_eq!(of("`hem-year why terrace.book 4285` says\n"), joined(&sentence("4285")));
    assert_eq!(of("and of the next hour\n"), joined(&sentence("4286")));

    let table = hem_year(&["why", book]);
    let lines = shown(&readme, "`hem-year why terrace.book` has the table\n");
    assert_eq!(lines.len(), 9, "{lines:?}");
    for line in &lines {
        assert!(table.lines().any(|l| l == line), "{line:?} in {table}");
    }
    let cooled = lines.iter().find(|line| line.starts_with("  cooling")).unwrap();
    let cooled: Vec<&str> = cooled.split_whitespace().collect();
    let words = format!(
        "of the {} hours that were cooled, in {} the supplied air was not cooler than the room,",
        cooled[7], cooled[3]
    );
    let first = joined(&fs::read_to_string(top().join("README.md")).unwrap());
    assert!(
        readme.contains(&words) && readme.contains(&format!("and in {} the windows", cooled[5]))
    );
    assert!(first.contains(&words) && first.contains(&format!(" in {} the windows", cooled[5])));

    let told = first
        .split("although the windows could open: ")
        .nth(1)
        .unwrap()
        .split(". ")
        .next()
        .unwrap();
    let said =
        sentence("4285").replace("the operative temperature without heating or cooling", "it");
    assert!(said.contains(told), "{told} in {said}");
}
