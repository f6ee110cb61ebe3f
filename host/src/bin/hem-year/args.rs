//! The words of a command line. Options may stand anywhere, with their value behind a space or `=`;
//! `--` ends them. What each command takes is told by `commands.rs`.
use crate::commands::{Command, Valued, COMMANDS, FLAGS, NUMBER, VALUED};
use crate::failure::Failure;
use crate::given::{wrong, Options, Words};
use lexopt::Arg;
use std::ffi::{OsStr, OsString};

/// What is asked for.
pub enum Asked {
    /// Help, in general or on a command.
    Help(Option<&'static Command>),
    Version,
    Do(Words),
}

pub fn parse(args: Vec<OsString>) -> Result<Asked, Failure> {
    let (mut places, options) = split(args)?;
    if options.version {
        return Ok(Asked::Version);
    }
    if places.first().is_some_and(|word| word == "help") {
        return help_on(&places[1..]);
    }
    let Some(first) = places.first() else {
        return match options.help {
            true => Ok(Asked::Help(None)),
            false => Err(wrong(None, "no command is given")),
        };
    };
    let command = command_of(first)?;
    if options.help {
        return Ok(Asked::Help(Some(command)));
    }
    places.remove(0);
    Words::of(command, places, options).map(Asked::Do)
}

fn help_on(rest: &[OsString]) -> Result<Asked, Failure> {
    match rest {
        [] => Ok(Asked::Help(None)),
        [word] if word == "help" => Ok(Asked::Help(None)),
        [word] => Ok(Asked::Help(Some(command_of(word)?))),
        [_, more, ..] => Err(wrong(None, format_args!("help: {more:?} is one word too many"))),
    }
}

fn command_of(word: &OsStr) -> Result<&'static Command, Failure> {
    let found = COMMANDS.iter().find(|command| word == command.name);
    found.ok_or_else(|| wrong(None, format_args!("{word:?} is not a command")))
}

/// Takes options and other words apart.
fn split(args: Vec<OsString>) -> Result<(Vec<OsString>, Options), Failure> {
    let (mut places, mut options) = (vec![], Options::default());
    let mut parser = lexopt::Parser::from_args(args);
    // Errors are told with the command, which is the first word that is no option.
    while let Some(arg) = parser.next().map_err(|e| of_lexopt(&places, e))? {
        match arg {
            Arg::Value(word) => places.push(word),
            Arg::Short('h') | Arg::Long("help") => options.help = true,
            Arg::Short('V') | Arg::Long("version") => options.version = true,
            Arg::Short(letter) => return Err(no_option(&places, &format!("-{letter}"))),
            Arg::Long(name) => match known(name) {
                Some(Known::Flag(name)) => options.flags.push(name),
                Some(Known::Valued(option)) => {
                    let values = values_of(&mut parser, &places, option)?;
                    options.values.push((option.name, values));
                }
                None => return Err(no_option(&places, &format!("--{name}"))),
            },
        }
    }
    Ok((places, options))
}

enum Known {
    Flag(&'static str),
    Valued(&'static Valued),
}

fn known(name: &str) -> Option<Known> {
    let flag = FLAGS.iter().find(|flag| **flag == name).map(|flag| Known::Flag(flag));
    let valued = || VALUED.iter().find(|valued| valued.name == name);
    flag.or_else(|| valued().map(Known::Valued))
}

/// The values of an option: the first behind `=`, each other the next word unless that looks like an option.
/// A number below 0 does not, where a number is asked for.
fn values_of(
    parser: &mut lexopt::Parser,
    places: &[OsString],
    Valued { name, what, count }: &Valued,
) -> Result<Vec<OsString>, Failure> {
    let mut values: Vec<OsString> = parser.optional_value().into_iter().collect();
    while values.len() < *count {
        match parser.value() {
            Ok(word) if !is_option(&word) || *what == NUMBER && is_below_0(&word) => {
                values.push(word)
            }
            _ if *count == 1 => {
                return Err(wrong(named(places), format_args!("--{name} needs a {what}")));
            }
            _ => {
                let text = format!("--{name} needs {count} {what}s, one behind the other");
                return Err(wrong(named(places), text));
            }
        }
    }
    Ok(values)
}

fn is_option(word: &OsStr) -> bool {
    word.as_encoded_bytes().starts_with(b"-")
}

fn is_below_0(word: &OsStr) -> bool {
    matches!(word.as_encoded_bytes(), [b'-', b'0'..=b'9' | b'.', ..])
}

fn named(places: &[OsString]) -> Option<&'static Command> {
    places.first().and_then(|word| command_of(word).ok())
}

fn no_option(places: &[OsString], option: &str) -> Failure {
    wrong(named(places), format_args!("{option} is not an option"))
}

fn of_lexopt(places: &[OsString], error: lexopt::Error) -> Failure {
    match error {
        lexopt::Error::UnexpectedValue { option, .. } => {
            wrong(named(places), format_args!("{option} takes no value"))
        }
        other => wrong(named(places), other),
    }
}
