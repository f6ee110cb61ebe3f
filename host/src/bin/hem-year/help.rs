//! The help of each command.

pub const SAMPLE: &str = "\
hem-year sample DIR

Writes a sample house to DIR: terrace.toml, and terrace.csv with 8,760 hours; terrace.head and
terrace.year are the same in bytes, terrace.epw is their weather. DIR is made if it is missing; a
file that exists already and is not the sample's own is not overwritten.
";

pub const HOUSE: &str = "\
hem-year house HOUSE.toml HEAD [--force]

Writes HEAD, the bytes of the house that HOUSE.toml describes. `hem-year sample DIR` writes one to
begin with, host/README.md has all names. Every fault of the file is told, with line, name, value
and range.

  --force      replaces HEAD whatever it holds; without it, only a head
";

pub const HOURS: &str = "\
hem-year hours HOURS.csv YEAR [--head HOUSE] [--force]

Writes YEAR, the conditions of the hours of HOURS.csv: a heading line with the names of the
columns, in any order, then a line for each hour. A column NAME.temp_ext (i_sol_dir, i_sol_dif,
f_sh_dir, f_sh_dif, open) is that of the element NAME, a column temp_ext that of all elements
which have none of their own. What has no column is taken from the table [conditions] of HOUSE.
The column time is not read; the column hour counts up, so that a missing line is found. Every
fault of the file is told, with line, column, value and range.

The air change rate of an hour is rate, with windows open and closed, or ach_target and
ach_windows_open, between which windows are opened. The fixed rate ach_cooling is retired: an hour
that has it is written as it is, but only the book that holds it already takes it.

  --head HOUSE the house, as HOUSE.toml or HEAD; without it each element needs a column
  --force      replaces YEAR whatever it holds; without it, only a file of conditions
";

pub const CHECK: &str = "\
hem-year check HOUSE HOURS [--entry-version N] [--heating-limit W] [--cooling-limit W]

Lists all faults of a house (HOUSE.toml or HEAD) and its hours (HOURS.csv or YEAR), a line each:
the first 100, then their number. An hour with the fixed rate ach_cooling (rate code 0), which is
retired, is a fault, told with the rate that is the same hour. Where there are none, start-up and all
hours are calculated, as in a new book, and what the engine refuses is told. Nothing is written.

  --entry-version N
               the version of the entries that are calculated, as `hem-year help run` has it; without
               it that of new books, 2
  --heating-limit W, --cooling-limit W
               the plant's greatest heating and cooling, as `hem-year help run` has them
";

pub const RUN: &str = "\
hem-year run HOUSE HOURS BOOK [--entry-version N] [--heating-limit W] [--cooling-limit W]

Begins BOOK for a house (HOUSE.toml or HEAD), or takes it up, and appends those of its hours
(HOURS.csv or YEAR) that it does not hold yet. Every hour that is held is calculated again first
and must be the same bytes.

A run may be stopped at any time, by Ctrl-C, by a kill or by a power cut: run again, the same
command ends in the same book, byte for byte. After Ctrl-C it says what is held.

A book that is damaged, that belongs to another house or other hours, or that another run is
writing is left as it is. Where a part of it is good, `hem-year cut` keeps that part.

Hours with a fixed rate (ach_cooling; rate code 0 in YEAR), which is retired, are taken only where
BOOK holds them already. If one is to be appended, no hour is: all of them are told, the first 100,
with the line and with the rate that is the same hour, rate = 0.45 for ach_cooling = 0.45. An hour
that is held with the other of the two is told too: `hem-year convert` writes those of BOOK anew.

  --entry-version N
               the version of the entries that are appended, which says how heating and cooling are
               shared between the air and the surfaces. 1: both by frac_convective_heat. 2: cooling
               by frac_convective_cool. 3: as 2, with the limits of a plant, which have to be given.
               Without it, and without limits, they have that of the book's last entry, in version 3
               with its limits, so a book that `cut` took back to hours of version 1 goes on in 1; in a
               new book, or one that holds no hour yet, 2. A book may pass to a higher version, never
               back. Hours that are held keep their version
  --heating-limit W, --cooling-limit W
               the greatest heating and cooling of the plant, watts, 0 to 10,000,000, for the year with
               the one that you mean to buy. An hour that asks for more gets the limit, and misses its
               setpoint; its demand is told uncut. Either means version 3; one that is not given is
               10,000,000, the greatest that there is. Hours that are held keep their limits; where
               they are others, the run says so
";

pub const REPORT: &str = "\
hem-year report BOOK [--csv FILE [--balance] [--nodes]] [--svg FILE]
                     [--head HOUSE] [--name NAME] [--force]

Calculates the hours of BOOK again and prints totals, kWh/m², a table of months, the ten hours of
greatest heating and cooling load, for how long the operative temperature was above 26 and 28 °C, how
many entries are of which version, and the fingerprints (SHA-256) of head, conditions and book. Two
prints with one fingerprint are of one book. Of hours with the limits of a plant it prints for how
long each limit held, by month too, the ten hours that left most unmet, what was delivered, and how
cold or warm it was in these hours. Of convection it prints how much heat went from the air into walls
and windows, ceilings and floors, by the direction in which it flowed (horizontal, upwards, downwards)
and by month; below 0 they gave more to the air than they took.

  --csv FILE   writes the hours as a table: number, beginning, length, all that was given for the hour,
               entry version, demand, air change rate and temperatures; where hours have limits, these,
               the power delivered, which limit held and the kWh left unmet. Lines with # say what it is
               of. The beginning is written with the year 2001, since hours have no year
  --balance    adds the heat balance's 28 columns, W; three of them are convection by direction
  --nodes      adds the temperature of each node, °C
  --svg FILE   draws the year: demand and temperatures of each day, how long each load lasts, and
               convection by month
  --head HOUSE the house, as HOUSE.toml or HEAD: BOOK must be of it, and the table has its names
  --name NAME  the house's name, else that of HOUSE.toml, else that of BOOK
  --force      replaces FILE whatever it holds; without it, only a table or drawing of a report

An hour that is damaged is found, because it is not what its conditions give. What cannot be found
is a changed condition, entry version or limit that has no effect in its hour (as a cooling
setpoint in winter): that is another true book, and has another fingerprint.
";

pub const WARM: &str = "\
hem-year warm BOOK [--above T] [--within LOW HIGH] [--nearest T]

Calculates the hours of BOOK again and says when it got warm, by their operative temperature, °C. At
least one of the three is needed; each is answered, in this order.

  --above T    the first hour in which the temperature goes from at or below T to above it, with the
               temperatures before the hour and at its end; before the first hour stands start-up
  --within LOW HIGH
               how many hours end within LOW to HIGH, both included, and of how many
  --nearest T  the hour that ends nearest to T, the earlier of two that are equally near

Hours are named by their number, from 1, and their beginning. T, LOW and HIGH are -1,000,000 to
1,000,000, below 0 as well (--above -5), and LOW is not above HIGH: others are refused.
";

pub const WHY: &str = "\
hem-year why BOOK [HOUR]

Calculates the hours of BOOK again and says why the hour HOUR, by its number from 1, has its air
change rate, and why it asks for heating, for cooling or for neither: one sentence, with the
temperatures, setpoints and rates that decided. Without HOUR it counts the hours by month and reason,
and how many of each asked for what.

The reason is the first of these that holds, by the temperatures at the end of the hour without the
heating or cooling that it asks for, of the air or operative as the setpoints are:

  no choice    the rate is fixed, or the same with windows open and closed
  not warm     with windows closed it would not be above the ventilation setpoint
  warm air     with windows closed the air would not be above the supplied air
  no use       open windows would not make it cooler
  too little   at the rate for the ventilation setpoint it would still be above the cooling setpoint
  enough       windows are enough, and are opened to that rate
";

pub const WEATHER: &str = "\
hem-year weather FILE.epw [--line N | --csv OUT] [--force]
hem-year weather FILE.epw HOURS OUT [--dry-bulb COLUMNS] [--direct COLUMNS] [--diffuse COLUMNS]
                 [--head HOUSE] [--force]

Reads an EnergyPlus weather file: eight header lines, which are not looked at, then a line for each
hour, from which three numbers are taken: dry bulb temperature, direct normal and diffuse horizontal
radiation (fields 7, 15 and 16). Lines are counted from 1 after the headers. A line is refused with
21 where it or a field is absent, 22 where a number is no plain decimal, has more than 12 digits or
is out of range, and 23 where it is missing (99.9, 9999).

Alone it prints extremes, mean and sums of all lines, and how many are refused; it fails only where no
line can be read. With HOURS (HOURS.csv or YEAR) and OUT it writes OUT, the same hours with the weather
of line 1 in the first and so on, where every line that is needed is good. Of HOURS.csv only the named
columns change; its column hour counts up, so that a missing line is found. Where the last header has
the weather of an hour, that is told: headers may be missing.

  --line N     prints the three numbers of the line N
  --csv OUT    writes all lines as a table: line, dry_bulb, direct_normal, diffuse_horizontal, and
               refused, the number that a line is refused with
  --dry-bulb COLUMNS
               the columns that get the dry bulb, with commas between them: temp_ext_air (which it is
               without the option), avg_air_supply_temp, temp_ext, NAME.temp_ext of the element NAME.
               temp_ext is the column of that name; in YEAR it is that of all elements
  --direct COLUMNS, --diffuse COLUMNS
               likewise for radiation: i_sol_dir, NAME.i_sol_dir; i_sol_dif, NAME.i_sol_dif. Behind a
               name may stand =FACTOR, by which the number is multiplied. Without them radiation
               stays, and gains_solar in any case. No position of the sun is calculated: direct normal
               is what falls on a surface that faces the sun, diffuse horizontal what falls on the
               ground
  --head HOUSE the house, as HOUSE.toml or HEAD: it names the elements of YEAR, and the engine judges
               the hours before they are written
  --force      replaces OUT whatever it holds; without it --csv replaces only a table of weather, the
               hours of a YEAR only a file of conditions, and those of a HOURS.csv only an empty file
";

pub const SHOW: &str = "\
hem-year show FILE [--hour N | --hours] [--head HOUSE]

Prints a head as the text of a house file, and conditions as a table of hours. Of a book it prints
the head. The text makes the same bytes again.

  --hour N     the conditions of the hour N, from 1; of a book what it led to as well
  --hours      the conditions of all hours of a book
  --head HOUSE the house that names the elements, as HOUSE.toml or HEAD
";

pub const CUT: &str = "\
hem-year cut BOOK HOURS NEW [--head HOUSE] [--force]

Writes the first hours of BOOK, as many as HOURS says, to NEW, as a book of its own. What stands
behind them in BOOK may be damaged and is not looked at. BOOK stays as it is.

  --head HOUSE takes the head of this house (HOUSE.toml or HEAD) in place of BOOK's own, where that one
               is damaged
  --force      replaces NEW whatever it holds; without it, only a book of the same head
";

pub const CONVERT: &str = "\
hem-year convert BOOK NEW [--force]

Calculates the hours of BOOK again and writes them to NEW, as a book of its own, where each hour with a
fixed rate (ach_cooling, rate code 0) has that rate for windows open and closed (rate; rate code 1 with
it twice). It is the same hour: every demand, temperature and chosen rate stays the same bits, and every
other hour stays as it is. It is said how many hours were written anew, with the fingerprint of NEW.
BOOK stays as it is; an unfinished hour at its end is left out.

A book from before the fixed rate was retired goes on with HOURS in which it is `rate`, once it is
converted. A book with hours of version 1 is refused: its year can be calculated anew, by `hem-year run`
into another book, from its hours with `rate`.

  --force      replaces NEW whatever it holds; without it, only a book of the same head
";
