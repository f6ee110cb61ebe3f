//! The command line of hem-year: its words, its help, the manual page and the completion.
mod common;

use common::Folder;
use hem_zone::{ENTRY_VERSION_1, NEWEST_ENTRY_VERSION};
use std::fs;
use std::path::Path;
use std::process::Command;

const COMMANDS: [&str; 12] = [
    "sample", "house", "hours", "check", "run", "report", "warm", "why", "weather", "show", "cut",
    "convert",
];

fn folder(name: &str) -> Folder {
    let folder = Folder::with_house_p(name, 3);
    folder.run().done();
    folder
}

#[test]
fn a_usage_error_is_one_sentence_with_where_to_read_more() {
    let folder = Folder::new("errors");
    for (words, sentence) in [
        (&[][..], "no command is given; see `hem-year help`"),
        (&["walk"], "\"walk\" is not a command; see `hem-year help`"),
        (&["help", "walk"], "\"walk\" is not a command; see `hem-year help`"),
        (&["help", "run", "cut"], "help: \"cut\" is one word too many; see `hem-year help`"),
        (&["run", "a", "b"], "run: BOOK is missing; see `hem-year help run`"),
        (&["run", "a", "b", "c", "d"], "run: \"d\" is one word too many; see `hem-year help run`"),
        (&["report"], "report: BOOK is missing; see `hem-year help report`"),
        (&["report", "b", "--csv"], "report: --csv needs a file; see `hem-year help report`"),
        (&["report", "b", "--csv", "--svg", "x"], "report: --csv needs a file; see"),
        (&["report", "b", "--pdf", "x"], "report: --pdf is not an option; see"),
        (&["report", "b", "-x"], "report: -x is not an option; see"),
        (&["report", "b", "--force=1"], "report: --force takes no value; see"),
        (&["report", "b", "--csv", "x", "--csv", "y"], "report: --csv is given twice; see"),
        (&["report", "b", "--force", "--force"], "report: --force is given twice; see"),
        (&["report", "b", "--balance"], "report: --balance is of use only with --csv; see"),
        (&["report", ""], "report: the word for BOOK is empty; see"),
        (&["report", "b", "--csv="], "report: the word for --csv is empty; see"),
        (&["run", "a", "b", "c", "--csv", "x"], "run: --csv is not an option of this command; see"),
        (&["run", "a", "b", "c", "--entry-version"], "run: --entry-version needs a number; see"),
        (
            &["run", "a", "b", "c", "--entry-version=two"],
            "run: --entry-version is \"two\", which is not a whole number from 0 to \
             18,446,744,073,709,551,615; see",
        ),
        (
            &["check", "a", "b", "--entry-version=18446744073709551616"],
            "check: --entry-version is \"18446744073709551616\", which is not a whole number from 0 to \
             18,446,744,073,709,551,615; see",
        ),
        (&["cut", "a", "-1", "b"], "cut: -1 is not an option; see"),
        (
            &["cut", "a", "1.5", "b"],
            "cut: HOURS is \"1.5\", which is not a whole number from 0 to 18,446,744,073,709,551,615; see",
        ),
        (&["show", "a", "--hour", "x"], "show: --hour is \"x\", which is not a whole number"),
        (&["show", "a", "--hour=1", "--hours"], "show: --hours and --hour exclude each other; see"),
        (&["warm", "--above", "20"], "warm: BOOK is missing; see `hem-year help warm`"),
        (&["warm", "b"], "warm: --above, --within or --nearest is needed; see"),
        (&["warm", "b", "c", "--above=1"], "warm: \"c\" is one word too many; see"),
        (&["warm", "b", "--above"], "warm: --above needs a number; see"),
        (&["warm", "b", "--above", "--nearest=1"], "warm: --above needs a number; see"),
        (&["warm", "b", "--above", "-inf"], "warm: --above needs a number; see"),
        (&["warm", "b", "--within"], "warm: --within needs 2 numbers, one behind the other; see"),
        (&["warm", "b", "--within", "1"], "warm: --within needs 2 numbers, one behind the other"),
        (&["warm", "b", "--within=1"], "warm: --within needs 2 numbers, one behind the other; see"),
        (&["warm", "b", "--within", "1", "--above=2"], "warm: --within needs 2 numbers, one"),
        (&["warm", "--within", "1", "b"], "warm: BOOK is missing; see"),
        (&["warm", "b", "--within", "1", ""], "warm: the word for --within is empty; see"),
        (&["warm", "b", "--above=1", "--above=2"], "warm: --above is given twice; see"),
        (&["warm", "b", "--within", "1", "2", "--within=1", "2"], "warm: --within is given twice;"),
        (&["warm", "b", "--head", "x"], "warm: --head is not an option of this command; see"),
        (&["why"], "why: BOOK is missing; see `hem-year help why`"),
        (&["why", "b", "1", "2"], "why: \"2\" is one word too many; see `hem-year help why`"),
        (&["why", ""], "why: the word for BOOK is empty; see"),
        (&["why", "b", ""], "why: the word for HOUR is empty; see"),
        (&["why", "b", "-1"], "why: -1 is not an option; see"),
        (&["why", "b", "--hour", "1"], "why: --hour is not an option of this command; see"),
        (
            &["why", "b", "noon"],
            "why: HOUR is \"noon\", which is not a whole number from 0 to 18,446,744,073,709,551,615; see",
        ),
        (&["why", "b", "1.5"], "why: HOUR is \"1.5\", which is not a whole number"),
        (&["why", "b", "18446744073709551616"], "which is not a whole number from 0 to 18,446,744,"),
        (&["report", "b", "--above", "1"], "report: --above is not an option of this command; see"),
        (&["convert"], "convert: BOOK is missing; see `hem-year help convert`"),
        (&["convert", "b"], "convert: NEW is missing; see `hem-year help convert`"),
        (&["convert", "b", ""], "convert: the word for NEW is empty; see"),
        (&["convert", "b", "c", "d"], "convert: \"d\" is one word too many; see"),
        (&["convert", "b", "c", "--head", "x"], "convert: --head is not an option of this command;"),
        (&["--csv"], "--csv needs a file; see `hem-year help`"),
    ] {
        folder.call(words).failed(2, sentence);
    }
    assert!(folder.names().is_empty(), "no command made a file");
}

#[test]
fn options_stand_anywhere() {
    let folder = folder("anywhere");
    let report = folder.call(&["report", "p.book"]).done();
    for words in [
        &["report", "--csv", "x.csv", "p.book"][..],
        &["report", "p.book", "--csv=x.csv"],
        &["--csv=x.csv", "report", "p.book"],
        &["--csv", "x.csv", "report", "--", "p.book"],
    ] {
        assert_eq!(folder.call(words).done(), report, "{words:?}");
        assert!(folder.text("x.csv").starts_with("# hem-year table"));
        folder.remove("x.csv");
    }
    // After -- every word is a file.
    folder.write("--csv", &folder.read("p.book"));
    let odd = folder.call(&["report", "--", "--csv"]).done();
    assert!(odd.starts_with("--csv: "), "{odd}");
    folder.call(&["report", "p.book", "--svg=--svg"]).done();
    assert!(folder.text("--svg").starts_with("<svg "));
    folder.call(&["report", "--", "p.book", "--svg"]).failed(2, "\"--svg\" is one word too many");
}

#[test]
fn help_and_version_are_everywhere() {
    let folder = Folder::new("help");
    let general = folder.call(&["help"]).done();
    for words in [&["--help"][..], &["-h"], &["help", "help"]] {
        assert_eq!(folder.call(words).done(), general);
    }
    for command in COMMANDS {
        assert!(general.contains(&format!("\n  hem-year {command} ")), "{command}");
        let help = folder.call(&["help", command]).done();
        assert!(help.starts_with(&format!("hem-year {command} ")), "{help}");
        assert!(help.contains("Exit status: 0 done") && !help.ends_with("\n\n"));
        for words in
            [&[command, "--help"][..], &["--help", command], &[command, "a", "-h", "--force"]]
        {
            assert_eq!(folder.call(words).done(), help);
        }
        let version = format!("hem-year {}\n", env!("CARGO_PKG_VERSION"));
        for words in [&["--version"][..], &["-V"], &[command, "--version"]] {
            assert_eq!(folder.call(words).done(), version);
        }
        assert!(
            help.lines().all(|line| line.chars().count() <= 104),
            "{command}: a line is too long"
        );
    }
    assert!(folder.names().is_empty(), "sample --help makes no folder");
}

/// The options that a text names, without their hyphens.
fn options(text: &str) -> Vec<String> {
    let mut found: Vec<String> = text
        .split("--")
        .skip(1)
        .map(|rest| rest.chars().take_while(|c| c.is_ascii_alphabetic() || *c == '-').collect())
        .filter(|name: &String| !name.is_empty())
        .collect();
    found.sort();
    found.dedup();
    found
}

#[test]
fn the_options_of_a_help_are_taken_and_no_others() {
    let folder = Folder::new("options");
    let valued = [
        "above",
        "cooling-limit",
        "csv",
        "diffuse",
        "direct",
        "dry-bulb",
        "entry-version",
        "head",
        "heating-limit",
        "hour",
        "line",
        "name",
        "nearest",
        "svg",
    ];
    let all = [&valued[..], &["balance", "force", "hours", "nodes", "within"]].concat();
    for command in COMMANDS {
        let help = folder.call(&["help", command]).done();
        let usage = help.split("\n\n").next().unwrap();
        let named = options(usage);
        assert!(options(&help).iter().all(|name| named.contains(name)), "{help}");
        for option in &all {
            let word = match valued.contains(option) {
                true => format!("--{option}=1"),
                false => format!("--{option}"),
            };
            let values: &[&str] = if *option == "within" { &["1", "2"] } else { &[] };
            let errors = folder.call(&[&[command, &word], values].concat()).errors();
            let refused = errors.contains("is not an option of this command");
            assert_eq!(refused, !named.iter().any(|n| n == option), "{command} {option}: {errors}");
        }
    }
}

fn host_file(name: &str) -> String {
    fs::read_to_string(Path::new(env!("CARGO_MANIFEST_DIR")).join(name)).unwrap()
}

#[test]
fn the_manual_page_has_every_command_and_option() {
    let (folder, page) = (Folder::new("manual"), host_file("hem-year.1"));
    for command in COMMANDS {
        assert!(page.contains(&format!("\n.It Cm {command} Ar ")), "{command}");
        let help = folder.call(&["help", command]).done();
        // A command may have several forms.
        let (forms, name) = (page.split("\n.Sh D").next().unwrap(), format!("\n.Cm {command}\n"));
        let forms = forms.split(&name).skip(1).map(|after| after.split("\n.Nm").next().unwrap());
        let synopsis: String = forms.collect();
        assert!(!synopsis.is_empty(), "{command}");
        for option in options(&help) {
            assert!(page.contains(&format!("\n.It Fl -{option}")), "--{option}");
            assert!(synopsis.contains(&format!("Fl -{option}")), "{command} --{option}");
        }
    }
    assert_eq!(page.matches("\n.It Cm ").count(), COMMANDS.len() + 1);
}

/// What bash offers behind some words, the last of which is being typed.
fn completed(folder: &Folder, words: &[&str]) -> Vec<String> {
    let script = Path::new(env!("CARGO_MANIFEST_DIR")).join("completions/hem-year.bash");
    let run = "source \"$1\"; shift; COMP_WORDS=(\"$@\"); COMP_CWORD=$(($# - 1)); _hem_year; \
               printf '%s\\n' \"${COMPREPLY[@]}\"";
    let mut bash = Command::new("bash");
    bash.args(["-c", run, "bash"]).arg(script).arg("hem-year").args(words);
    let output = bash.current_dir(&folder.0).output().unwrap();
    assert_eq!(String::from_utf8_lossy(&output.stderr), "");
    let text = String::from_utf8(output.stdout).unwrap();
    let mut found: Vec<String> = text.lines().filter(|l| !l.is_empty()).map(String::from).collect();
    found.sort();
    found
}

#[test]
fn the_completion_offers_commands_options_and_files() {
    let folder = folder("completion");
    assert_eq!(completed(&folder, &["r"]), ["report", "run"]);
    let mut all: Vec<&str> = [&COMMANDS[..], &["help"]].concat();
    all.sort();
    assert_eq!(completed(&folder, &[""]), all);
    assert_eq!(completed(&folder, &["help", "c"]), ["check", "convert", "cut"]);
    assert_eq!(completed(&folder, &["w"]), ["warm", "weather", "why"]);
    assert_eq!(completed(&folder, &["-"]), ["--help", "--version"]);
    for command in COMMANDS {
        let help = folder.call(&["help", command]).done();
        let mut expected: Vec<String> =
            options(&help).iter().map(|name| format!("--{name}")).collect();
        expected.push("--help".into());
        expected.sort();
        assert_eq!(completed(&folder, &[command, "--"]), expected, "{command}");
        assert_eq!(completed(&folder, &[command, "p."]), ["p.book", "p.head", "p.year"]);
    }
    assert_eq!(completed(&folder, &["report", "p.book", "--csv", "p.y"]), ["p.year"]);
    assert_eq!(completed(&folder, &["--force", "report", "--s"]), ["--svg"]);
    assert!(completed(&folder, &["show", "p.book", "--hour", ""]).is_empty());
    assert!(completed(&folder, &["show", "p.book", "--hour", "=", ""]).is_empty());
    assert!(completed(&folder, &["show", "p.book", "--hour="]).is_empty());
    assert_eq!(completed(&folder, &["report", "p.book", "--csv", "=", "p.y"]), ["p.year"]);
    let versions: Vec<String> =
        (ENTRY_VERSION_1..=NEWEST_ENTRY_VERSION).map(|version| version.to_string()).collect();
    for command in ["check", "run"] {
        // Bash gives the = of an option as a word of its own, unless it is told otherwise.
        for typed in [&[""][..], &["="], &["=", ""]] {
            let words = [&[command, "p.head", "--entry-version"], typed].concat();
            assert_eq!(completed(&folder, &words), versions, "{words:?}");
        }
        assert!(completed(&folder, &[command, "p.head", "--entry-version="]).is_empty());
        for limit in ["--heating-limit", "--cooling-limit"] {
            assert!(completed(&folder, &[command, "p.head", limit, ""]).is_empty());
            assert!(completed(&folder, &[command, "p.head", limit, "=", ""]).is_empty());
            assert!(completed(&folder, &[command, "p.head", &format!("{limit}=")]).is_empty());
        }
    }
    for option in ["--above", "--within", "--nearest"] {
        assert!(completed(&folder, &["warm", option, ""]).is_empty());
        assert!(completed(&folder, &["warm", option, "=", ""]).is_empty());
        assert!(completed(&folder, &["warm", &format!("{option}=")]).is_empty());
    }
    for (option, names) in [
        ("--dry-bulb", &["avg_air_supply_temp", "temp_ext", "temp_ext_air"][..]),
        ("--direct", &["i_sol_dir"]),
        ("--diffuse", &["i_sol_dif"]),
        ("--line", &[]),
    ] {
        assert_eq!(completed(&folder, &["weather", "p.epw", option, ""]), names);
        assert_eq!(completed(&folder, &["weather", "p.epw", option, "=", ""]), names);
        assert!(completed(&folder, &["weather", "p.epw", &format!("{option}=")]).is_empty());
    }
    // A file comes behind one number, of --within behind two.
    assert_eq!(completed(&folder, &["warm", "--above", "20", "p.b"]), ["p.book"]);
    assert!(completed(&folder, &["warm", "--within", "20", "p.b"]).is_empty());
    assert!(completed(&folder, &["warm", "--within", "=", "20", "p.b"]).is_empty());
    assert_eq!(completed(&folder, &["warm", "--within", "20", "22", "p.b"]), ["p.book"]);
    assert_eq!(completed(&folder, &["warm", "--within", "=", "20", "22", "p.b"]), ["p.book"]);
    assert_eq!(completed(&folder, &["--within"]), Vec::<String>::new());
}
