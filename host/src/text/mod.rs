//! Houses and hours as text: a house is TOML, hours are CSV.
//!
//! Values have the names of [`Head`] and [`Conditions`]; numbers are read to the nearest `f64` and
//! written so that they read back to the same bits. What is wrong with a text is told all at once, each
//! fault with file, line, name, value and range ([`Faults`]).
//!
//! ```
//! use hem_zone::{samples, text, Head, Zone};
//!
//! let house = samples::house_p();
//! let written = text::write_house(&house, &text::Plan::of_head(&house));
//! let mut faults = text::Faults::new();
//! let read = text::read_house("p.toml", &written, &mut faults);
//! assert_eq!(read.head, Some(house));
//! ```
//!
//! [`Head`]: crate::Head
//! [`Conditions`]: crate::Conditions
mod assemble;
mod compact;
mod constants;
mod csv_lines;
mod depth;
mod faults;
mod heading;
mod hour_numbers;
mod hours;
mod hours_text;
mod house;
mod house_text;
mod number;
mod of_bytes;
mod open;
mod plan;
mod rates;
mod table;
mod tree;
mod what;

pub use compact::compact;
pub use faults::{Faults, MOST_TOLD};
pub use hour_numbers::HourNumbers;
pub use hours::{hour_lines, read_hours};
pub use hours_text::{results_text, write_hours};
pub use house::{read_house, House};
pub use house_text::write_house;
pub use number::{read as read_number, short as write_number};
pub use of_bytes::{conditions_faults, elements_of_year, head_faults, hours_of_form};
pub use plan::Plan;
pub use rates::{rate_columns, FIXED_RATE};
