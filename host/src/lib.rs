//! The zone calculation of the Home Energy Model, from Rust.
//!
//! The engine is a static library (`libhem_zone.a`, C interface in `include/hem_zone.h`). This crate
//! calls it safely and gives its bytes names:
//!
//! - [`Head`] describes a zone and [`Conditions`] an hour; both are written to the bytes of
//!   docs/SPECIFICATION.md and judged by the engine alone.
//! - [`Zone`] is a head that the engine accepted. It answers start-up, demand, update and hour step, and says
//!   [why](Zone::why) an hour has its air change rate and its load.
//! - [`State`] holds the node temperatures, handed back by each call.
//! - [`Book`] is a year: a head and the entry of each hour, which can be written to a file as it
//!   grows and taken up again after a power cut.
//! - An hour step and an entry have a version, by whose [`Rule`] heating and cooling are shared between air
//!   and surfaces ([`ENTRY_VERSION_1`], [`ENTRY_VERSION_2`]) and may have the [`Limits`] of a plant
//!   ([`ENTRY_VERSION_3`]).
//! - [`first_above`], [`hours_within`] and [`nearest_hour`] say when it got warm.
//! - [`convert`] writes the hours of a book that have one fixed rate, which the calls no longer take, anew.
//! - [`weather`] and [`weather_lines`] read temperature and radiation from an EnergyPlus weather file.
//! - `text` (feature `text`) reads and writes heads as TOML and hours as CSV.
//! - [`Refusal`] says why a call was turned away: its [`Reason`], number and index, and one sentence.
//!
//! The engine's values are those of rounding to nearest with denormal numbers. A thread that has another
//! floating-point environment is refused ([`Reason::FloatEnvironment`]) before the engine is called.
//!
//! ```
//! use hem_zone::{samples, Book, ENTRY_VERSION_2};
//!
//! let mut book = Book::begin(&samples::house_p())?;
//! book.append(&samples::hour_p(21.0, 24.0), ENTRY_VERSION_2)?;
//! assert_eq!(book.entry(0).unwrap().demand().space_heat_demand, 0.144);
//!
//! let again = Book::take_up(book.bytes())?;
//! assert_eq!(again.state(), book.state());
//! # Ok::<(), hem_zone::Refusal>(())
//! ```
mod book;
mod bytes;
mod conditions;
mod converter;
mod entry;
mod explain;
mod false_entry;
pub mod ffi;
mod float;
mod head;
mod heat_balance;
mod layout;
mod lent;
mod limits;
mod names;
mod questions;
mod ranges;
mod refusal;
pub mod samples;
#[cfg(feature = "text")]
pub mod text;
mod values;
mod versions;
mod weather;
mod weather_fault;
mod why;
mod zone;

pub use book::{Book, MOST_ENTRIES};
pub use conditions::{
    bytes_with_rate_twice, fixed_rate, AirChangesPerHour, Conditions, ElementHour, NO_CONTROL,
};
pub use converter::convert;
pub use entry::Entry;
pub use head::{Basis, BuildingElement, Head, Kind, Layers, Pane};
pub use heat_balance::{
    HeatBalance, HeatBalanceAirNode, HeatBalanceExternalBoundary, HeatBalanceInternalBoundary,
};
pub use layout::Layout;
pub use lent::{AsConditions, AsHead};
pub use limits::{HeldLimit, Limits};
pub use questions::{first_above, hours_within, nearest_hour};
pub use refusal::{Reason, Refusal};
pub use versions::{
    entry_versions_to, Rule, ENTRY_VERSION_1, ENTRY_VERSION_2, ENTRY_VERSION_3,
    NEWEST_ENTRY_VERSION,
};
pub use weather::{weather, weather_lines, Weather, WeatherLines};
pub use why::{Load, RateReason, Why};
pub use zone::{Demand, State, Zone};
