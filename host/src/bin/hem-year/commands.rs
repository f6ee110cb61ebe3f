//! The commands: what each takes, and the general help.
use crate::help;

/// A command with its words.
pub struct Command {
    pub name: &'static str,
    /// The words that are no options, by name.
    pub places: &'static [&'static str],
    /// How many of them have to be given.
    pub needed: usize,
    pub options: &'static [&'static str],
    pub help: &'static str,
}

/// A command all of whose words have to be given.
const fn command(
    name: &'static str,
    places: &'static [&'static str],
    options: &'static [&'static str],
    help: &'static str,
) -> Command {
    Command { name, places, needed: places.len(), options, help }
}

/// What the value of an option is, where it is a number.
pub const NUMBER: &str = "number";
/// What it is, where it is names of columns.
const COLUMNS: &str = "list of columns";

/// An option that takes values.
pub struct Valued {
    pub name: &'static str,
    /// What each value is.
    pub what: &'static str,
    /// How many there are.
    pub count: usize,
}

const fn valued(name: &'static str, what: &'static str) -> Valued {
    Valued { name, what, count: 1 }
}

/// Options that take values.
pub const VALUED: &[Valued] = &[
    valued("csv", "file"),
    valued("svg", "file"),
    valued("name", "name"),
    valued("head", "file"),
    valued("hour", NUMBER),
    valued("entry-version", NUMBER),
    valued("heating-limit", NUMBER),
    valued("cooling-limit", NUMBER),
    valued("above", NUMBER),
    Valued { name: "within", what: NUMBER, count: 2 },
    valued("nearest", NUMBER),
    valued("line", NUMBER),
    valued("dry-bulb", COLUMNS),
    valued("direct", COLUMNS),
    valued("diffuse", COLUMNS),
];

/// Options that take none.
pub const FLAGS: &[&str] = &["balance", "force", "hours", "nodes"];

/// The options that say how hours are calculated.
const RULE: &[&str] = &["entry-version", "heating-limit", "cooling-limit"];

pub const COMMANDS: &[Command] = &[
    command("sample", &["DIR"], &[], help::SAMPLE),
    command("house", &["HOUSE.toml", "HEAD"], &["force"], help::HOUSE),
    command("hours", &["HOURS.csv", "YEAR"], &["head", "force"], help::HOURS),
    command("check", &["HOUSE", "HOURS"], RULE, help::CHECK),
    command("run", &["HOUSE", "HOURS", "BOOK"], RULE, help::RUN),
    command(
        "report",
        &["BOOK"],
        &["csv", "svg", "name", "head", "balance", "nodes", "force"],
        help::REPORT,
    ),
    command("warm", &["BOOK"], &["above", "within", "nearest"], help::WARM),
    Command { name: "why", places: &["BOOK", "HOUR"], needed: 1, options: &[], help: help::WHY },
    Command {
        name: "weather",
        places: &["FILE.epw", "HOURS", "OUT"],
        needed: 1,
        options: &["line", "csv", "dry-bulb", "direct", "diffuse", "head", "force"],
        help: help::WEATHER,
    },
    command("show", &["FILE"], &["hour", "hours", "head"], help::SHOW),
    command("cut", &["BOOK", "HOURS", "NEW"], &["head", "force"], help::CUT),
    command("convert", &["BOOK", "NEW"], &["force"], help::CONVERT),
];

pub const HELP: &str = "\
hem-year: the heating and cooling of a house, hour by hour

  hem-year sample DIR                writes a sample house and its year
  hem-year check HOUSE HOURS         lists all faults of a house and its hours
  hem-year run HOUSE HOURS BOOK      calculates the hours of a year into a book
  hem-year report BOOK               prints its totals and highest loads, as text, table and drawing
  hem-year warm BOOK                 says when it got warm, and for how many hours
  hem-year why BOOK [HOUR]           says why an hour has its air change rate and its load
  hem-year cut BOOK HOURS NEW        keeps the first hours of a book
  hem-year convert BOOK NEW          writes the fixed rates of an older book anew
  hem-year weather FILE.epw          says what a weather file has, and puts its weather into hours
  hem-year house HOUSE.toml HEAD     makes the bytes of a house
  hem-year hours HOURS.csv YEAR      makes the bytes of its hours
  hem-year show FILE                 prints such bytes, or a book's, as text
  hem-year help [COMMAND]            prints this, or the help of a command
  hem-year --version                 prints the version

HOUSE is a house file (HOUSE.toml) or the bytes that `house` makes of it (HEAD), HOURS is a table
(HOURS.csv) or the bytes that `hours` makes of it (YEAR). Options may stand anywhere; `--` ends
them. A file that is written replaces only one of its own kind: for any other --force is asked
for.
";

/// What every help ends with.
pub const ENDING: &str = "
Exit status: 0 done; 1 refused by the engine, or a fault in a text, with the place and a sentence;
2 usage or file error; 130 stopped by Ctrl-C (143 by a request to end).
";
