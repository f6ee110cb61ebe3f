//! hem-year: a year of a zone, hour by hour, in a book that survives a power cut.
#![forbid(unsafe_code)]

mod args;
mod calendar;
mod chart;
mod check;
mod commands;
mod convection;
mod convection_panel;
mod convection_text;
mod convert;
mod csv_fields;
mod cut;
mod damage;
mod days;
mod draft;
mod failure;
mod figures;
mod files;
mod fingerprint;
mod fixed_rate;
mod given;
mod help;
mod highest;
mod hours;
mod house;
mod inputs;
mod kind;
mod load;
mod monthly;
mod output;
mod panel;
mod places;
mod plant;
mod plant_text;
mod print;
mod progress;
mod report;
mod rule;
mod run;
mod sample;
mod sample_epw;
mod sample_weather;
mod show;
mod stop;
mod store;
mod sums;
mod surfaces;
mod svg;
mod table;
mod terrace;
mod version;
mod warm;
mod warmth;
mod weather;
mod weather_columns;
mod weather_into;
mod weather_into_table;
mod weather_into_year;
mod weather_overview;
mod weather_table;
mod why;
mod why_hour;
mod why_load;
mod why_table;
mod why_text;
mod why_told;
mod words;

use args::Asked;
use failure::Failure;
use given::Words;
use std::io::Write;
use std::process::ExitCode;

fn main() -> ExitCode {
    stop::let_writes_fail();
    match perform() {
        Ok(()) => ExitCode::SUCCESS,
        Err(failure) => {
            // Where nobody can be told, the exit status still tells.
            let _ = writeln!(std::io::stderr(), "hem-year: {failure}");
            ExitCode::from(failure.exit_status())
        }
    }
}

fn perform() -> Result<(), Failure> {
    match args::parse(std::env::args_os().skip(1).collect())? {
        Asked::Help(None) => files::print(&format!("{}{}", commands::HELP, commands::ENDING)),
        Asked::Help(Some(command)) => {
            files::print(&format!("{}{}", command.help, commands::ENDING))
        }
        Asked::Version => files::print(&format!("{}\n", print::PROGRAM)),
        Asked::Do(words) => command(&words),
    }
}

fn command(words: &Words) -> Result<(), Failure> {
    match words.command.name {
        "sample" => sample::sample(words.path(0)),
        "house" => house::house(words.path(0), words.path(1), words.has("force")),
        "hours" => {
            hours::hours(words.path(0), words.path(1), words.file("head"), words.has("force"))
        }
        "check" => check::check(&check::Check {
            house: words.path(0),
            hours: words.path(1),
            rule: rule::named(words)?,
        }),
        "show" => show(words),
        "run" => run::run(&run::Run {
            house: words.path(0),
            hours: words.path(1),
            book: words.path(2),
            rule: rule::named(words)?,
        }),
        "cut" => cut::cut(&cut::Cut {
            book: words.path(0),
            keep: words.number(1)?,
            new: words.path(2),
            head: words.file("head"),
            force: words.has("force"),
        }),
        "convert" => convert::convert(words.path(0), words.path(1), words.has("force")),
        "report" => report(words),
        "warm" => warm(words),
        "weather" => weather::weather(words),
        "why" => why::why(words.path(0), words.number_if_given(1)?),
        other => Err(Failure::usage(format!("{other:?} is not a command"))),
    }
}

fn show(words: &Words) -> Result<(), Failure> {
    words.excludes("hours", "hour")?;
    let (hour, hours) = (words.number_of("hour", usize::MAX)?, words.has("hours"));
    show::show(words.path(0), show::Show { hour, hours, house: words.file("head") })
}

fn warm(words: &Words) -> Result<(), Failure> {
    words.needs_one_of(["above", "within", "nearest"])?;
    warm::warm(&warm::Warm {
        book: words.path(0),
        above: words.decimal_of("above")?,
        within: words.two_decimals_of("within")?,
        nearest: words.decimal_of("nearest")?,
    })
}

fn report(words: &Words) -> Result<(), Failure> {
    for flag in ["balance", "nodes"] {
        words.needs(flag, "csv")?;
    }
    report::report(&report::Report {
        book: words.path(0),
        name: words.value("name").map(|name| name.to_string_lossy().into_owned()),
        house: words.file("head"),
        csv: words.file("csv"),
        svg: words.file("svg"),
        columns: table::Columns { balance: words.has("balance"), nodes: words.has("nodes") },
        force: words.has("force"),
    })
}
