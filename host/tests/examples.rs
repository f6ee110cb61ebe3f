//! examples/ and the README: the drawing and the lines that are shown there are those of the program.
#[allow(dead_code)] // Its main is not called.
#[path = "../examples/plant.rs"]
mod plant;

use std::fs;
use std::path::{Path, PathBuf};
use std::process::Command;

fn top() -> PathBuf {
    Path::new(env!("CARGO_MANIFEST_DIR")).join("..")
}

fn folder(name: &str) -> PathBuf {
    let folder = Path::new(env!("CARGO_TARGET_TMPDIR")).join(name);
    let _ = fs::remove_dir_all(&folder);
    fs::create_dir_all(&folder).unwrap();
    folder
}

/// What the program prints, run at the top of the repository.
fn hem_year(words: &[&str]) -> String {
    let done = Command::new(env!("CARGO_BIN_EXE_hem-year"))
        .args(words)
        .current_dir(top())
        .output()
        .unwrap();
    assert!(done.status.success(), "{words:?}: {}", String::from_utf8_lossy(&done.stderr));
    String::from_utf8(done.stdout).unwrap()
}

/// What a README says before lines of the report.
const OF_THE_REPORT: &str = "the report says, among other things:";

/// The lines that a README shows behind a sentence.
fn shown(readme: &str, sentence: &str) -> Vec<String> {
    let after = readme.split(sentence).nth(1).expect("the sentence");
    let block = after.lines().skip(1).skip_while(|line| line.is_empty());
    let block = block.take_while(|line| line.is_empty() || line.starts_with("    "));
    block.map(|line| line.trim().to_string()).filter(|line| !line.is_empty()).collect()
}

/// Every line that a README shows behind a sentence is one of the report, and there are at least so many.
fn must_show(readme: &str, sentence: &str, report: &str, least: usize) {
    let lines = shown(&fs::read_to_string(top().join(readme)).unwrap(), sentence);
    assert!(lines.len() >= least, "{readme} shows {lines:?}");
    for line in lines {
        assert!(
            report.lines().any(|l| l.trim() == line),
            "{readme} shows {line:?}, the report says\n{report}"
        );
    }
}

#[test]
fn the_drawing_and_the_lines_of_the_readme_are_those_of_the_sample() {
    let folder = folder("examples");
    let (book, svg) = (folder.join("terrace.book"), folder.join("terrace.svg"));
    let (book, svg) = (book.to_str().unwrap(), svg.to_str().unwrap());
    let house = "examples/terrace.toml";
    hem_year(&["run", house, "examples/terrace.csv", book]);
    let report = hem_year(&["report", book, "--head", house, "--svg", svg]);

    let drawn = fs::read(svg).unwrap();
    let kept = fs::read(top().join("examples/terrace.svg")).unwrap();
    assert!(
        drawn == kept,
        "examples/terrace.svg is not what ./run draws (target/sample/terrace.svg)"
    );
    must_show("README.md", OF_THE_REPORT, &report, 4);
    must_show("host/README.md", "Of the sample house it says", &report, 9);
}

#[test]
fn the_plants_of_the_readme_are_those_of_the_sample() {
    let folder = folder("plants");
    let house = "examples/terrace.toml";
    let report = |limit: &str| {
        let book = folder.join(format!("{limit}.book"));
        let book = book.to_str().unwrap();
        hem_year(&["run", house, "examples/terrace.csv", book, "--heating-limit", limit]);
        hem_year(&["report", book, "--head", house])
    };
    let pump = report("3200");
    must_show("host/README.md", OF_THE_REPORT, &pump, 9);
    // Six kilowatts are more than any hour asks for, so the year is the one that the first README shows.
    let six = report("6000");
    assert!(
        six.contains("\nHeating    at most 6,000 W: 2673.5 kWh delivered, 0.0 kWh unmet\n"),
        "{six}"
    );
    must_show("README.md", OF_THE_REPORT, &six, 4);
}

#[test]
fn the_warm_hours_of_the_readme_are_those_of_the_sample() {
    let folder = folder("warm_hours");
    let book = folder.join("warm.book");
    let book = book.to_str().unwrap();
    let house = "examples/terrace.toml";
    hem_year(&["run", house, "examples/terrace.csv", book, "--cooling-limit", "0"]);
    let readme = fs::read_to_string(top().join("host/README.md")).unwrap();
    let questions = ["--above", "26", "--within", "26", "28", "--nearest", "28"];
    assert!(readme.contains(&format!("hem-year warm warm.book {}\n", questions.join(" "))));
    let said = hem_year(&[&["warm", book], &questions[..]].concat()).replace(book, "warm.book");
    assert_eq!(shown(&readme, "it says:"), said.lines().collect::<Vec<_>>());
    let report = hem_year(&["report", book, "--head", house]);
    let lines = shown(&readme, "and the report has for the whole year");
    assert!(lines.len() == 1 && report.lines().any(|line| line == lines[0]), "{lines:?} {report}");
}

#[test]
fn the_example_says_how_often_a_plant_is_too_small() {
    let folder = folder("plant");
    hem_year(&["sample", folder.to_str().unwrap()]);
    let file = |name: &str| folder.join(name).to_str().unwrap().to_string();
    let ask = |sizes: &[&str]| {
        let sizes = sizes.iter().map(|size| size.to_string());
        let files = [file("terrace.head"), file("terrace.year")];
        plant::answers(&files.into_iter().chain(sizes).collect::<Vec<_>>())
    };
    let expected = "6000 W: always enough\n\
                    3200 W: too small in 125 hours, by 113.2 kWh; down to 18.5 °C then\n";
    assert_eq!(ask(&["6000", "3200"]).unwrap(), expected);
    let refused = ask(&["-1"]).unwrap_err().to_string();
    assert_eq!(refused, "heating_limit is -1, out of its range 0 to 10,000,000 (refusal 19)");
    assert_eq!(plant::answers(&[]).unwrap_err().to_string(), "usage: plant HEAD YEAR WATTS ...");
}
