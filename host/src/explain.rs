//! The sentence of a refusal. Number and index are the engine's; here the value that it meant is
//! looked up in the bytes, by the layouts and ranges of docs/SPECIFICATION.md.
use crate::bytes::{f64_at, length_at};
use crate::conditions::{ElementHour, COMMON_SIZE, RATE_CODE};
use crate::layout::{element_size, Layout, ENTRY_VERSION_AT, HEAD_COMMON};
use crate::limits::Limits;
use crate::ranges::{plain, FRACTION, GAINS, OPEN, POWER_LIMIT, QUESTION, RATE};
use crate::refusal::Reason;
use crate::values::{conditions_values, head_values, treatments_text, Value};
use crate::versions::{entry_versions_to, is_known, ENTRY_VERSION_1, NEWEST_ENTRY_VERSION};
use crate::weather_fault::{self, AskedLine};
use std::ops::Range;

/// What a call was given, as far as its refusal may speak of it.
#[derive(Clone, Copy, Default)]
pub(crate) struct Given<'a> {
    pub(crate) head: &'a [u8],
    /// Node temperatures, and how many there are said to be.
    pub(crate) temps: &'a [f64],
    pub(crate) nodes: usize,
    pub(crate) conditions: &'a [u8],
    /// Whether the call takes conditions with a fixed rate.
    pub(crate) fixed_rate: FixedRate,
    /// Gains, fraction and rate of an update.
    pub(crate) own: Option<[f64; 3]>,
    /// The entry version of an hour step or an append.
    pub(crate) version: Option<NamedVersion>,
    /// The limits of an hour step or an append.
    pub(crate) limits: Option<Limits>,
    /// The values of a question by name: one, or the lower and the upper end of a band.
    pub(crate) asked: &'a [(&'static str, f64)],
    /// The line of a weather file.
    pub(crate) weather: Option<AskedLine<'a>>,
}

/// Whether a call takes conditions with a fixed rate, code 0.
#[derive(Clone, Copy, Default)]
pub(crate) enum FixedRate {
    #[default]
    Retired,
    /// By `why`, and where an entry of a book is judged.
    StillTaken,
}

/// An entry version that a call names or an entry has, and that of the entry before it, if there is one.
#[derive(Clone, Copy)]
pub(crate) struct NamedVersion {
    pub(crate) version: u64,
    pub(crate) before: Option<u64>,
}

/// The sentence of a refusal for this reason, with this index.
pub(crate) fn sentence(reason: Reason, index: u32, given: &Given) -> String {
    let found = match reason {
        Reason::HeadShort | Reason::HeadLength | Reason::HeadVersion | Reason::Structure => {
            head_form(reason, index, given.head)
        }
        Reason::ZoneValue => first_fault(&head_values(given.head), index),
        Reason::StateInvalid => state(given),
        Reason::ConditionsSize => conditions_size(given),
        Reason::ConditionsCode => conditions_form(given),
        Reason::ConditionsValue => conditions_fault(given, index),
        Reason::CoolingBelowHeating => setpoints("cooling", given.conditions, HOUR_SETPOINTS, 1),
        Reason::VentilationBelowHeating if given.conditions.is_empty() => {
            setpoints("first ventilation", given.head, HEAD_SETPOINTS, 1)
        }
        Reason::VentilationBelowHeating => {
            setpoints("ventilation", given.conditions, HOUR_SETPOINTS, 2)
        }
        Reason::NotSettled => passes(given.head),
        Reason::LimitValue => limits(given),
        Reason::QuestionValue => question(given),
        Reason::WeatherAbsent | Reason::WeatherInvalid | Reason::WeatherMissing => {
            given.weather.and_then(|asked| weather_fault::fault(reason, asked))
        }
        Reason::FalseEntry => return named_version(given).unwrap_or_else(|| reason.to_string()),
        Reason::Version1Entry => version_1(given.head),
        _ => None,
    };
    found.unwrap_or_else(|| at_element(index, &reason.to_string()))
}

/// The first value out of its range, of those that have this index.
fn first_fault(values: &[Value], index: u32) -> Option<String> {
    let fault = values.iter().find(|v| v.index == index && !v.range.contains(v.value))?;
    let text =
        format!("{} is {}, out of its range {}", fault.name, plain(fault.value), fault.range);
    Some(at_element(index, &text))
}

fn at_element(index: u32, text: &str) -> String {
    match index {
        0 => text.to_string(),
        _ => format!("element {index}: {text}"),
    }
}

// ---- heads ----

fn head_form(reason: Reason, index: u32, head: &[u8]) -> Option<String> {
    if head.len() < 4 {
        return Some(format!("the head has {} bytes and not even its 4-byte length", head.len()));
    }
    let (length, body) = (length_at(head, 0), &head[4..]);
    match reason {
        Reason::HeadShort => {
            Some(format!("the head ends early: {} bytes of {} are there", body.len(), length))
        }
        Reason::HeadLength if !(176..=4157).contains(&length) => {
            Some(format!("the head's length is {length}, outside 176 to 4,157"))
        }
        Reason::HeadLength => {
            Some(format!("the head's length is {length}, which is not what its elements take"))
        }
        Reason::HeadVersion => Some(format!("the head's version is {}, not 1", body.first()?)),
        _ if index == 0 => basis_or_count(body),
        _ => kind_or_treatments(body, index),
    }
}

fn basis_or_count(body: &[u8]) -> Option<String> {
    let (basis, count) = (body.get(1)?, body.get(2)?);
    Some(match basis {
        0 | 1 => format!("the element count is {count}, not 1 to 24"),
        _ => format!("the basis is {basis}, not 0 (air) or 1 (operative)"),
    })
}

fn kind_or_treatments(body: &[u8], index: u32) -> Option<String> {
    let mut at = HEAD_COMMON;
    for _ in 1..index {
        at += element_size(*body.get(at)?, *body.get(at + 1)? as usize);
    }
    let (kind, treatments) = (*body.get(at)?, *body.get(at + 1)?);
    let text = if kind > 5 {
        format!("kind is {kind}, not 0 to 5")
    } else if treatments > 4 {
        format!("treatment count is {treatments}, not 0 to 4")
    } else {
        format!("treatment count is {treatments}, but only a transparent element has treatments")
    };
    Some(at_element(index, &text))
}

fn passes(head: &[u8]) -> Option<String> {
    let limit = u16::from_be_bytes([*head.get(7)?, *head.get(8)?]);
    Some(format!("start-up did not settle within its limit of passes ({})", plain(limit as f64)))
}

// ---- entry versions ----

fn named_version(given: &Given) -> Option<String> {
    Some(format!("the entry {}", given.version?.fault()?))
}

/// Which entry of a book is the first of version 1.
fn version_1(book: &[u8]) -> Option<String> {
    let layout = Layout::of_accepted(book);
    let is_1 =
        |entry: Range<usize>| u64::from(book[entry.start + ENTRY_VERSION_AT]) == ENTRY_VERSION_1;
    let place = layout.entries(book).position(is_1)?;
    Some(format!(
        "entry {place} is of version 1, and a book with entries of version 1 is not converted"
    ))
}

impl NamedVersion {
    /// What is wrong with the version: no hour has it, or it is below that of the entry before.
    pub(crate) fn fault(&self) -> Option<String> {
        let version = self.version;
        match self.before {
            _ if !is_known(version) => {
                let known = entry_versions_to(NEWEST_ENTRY_VERSION, "or");
                Some(format!("version is {version}, not {known}"))
            }
            Some(before) if version < before => {
                Some(format!("version is {version}, below that of the entry before it, {before}"))
            }
            _ => None,
        }
    }
}

// ---- states and conditions, of a head that was accepted ----

fn state(given: &Given) -> Option<String> {
    let nodes = Layout::of_accepted(given.head).nodes();
    if given.nodes != nodes {
        return Some(format!("the state has {} temperatures, the zone {nodes} nodes", given.nodes));
    }
    let bad = |t: &&f64| !t.is_finite() || t.abs() > 1e6;
    let (node, t) = given.temps.iter().take(nodes).enumerate().find(|(_, t)| bad(t))?;
    Some(format!("node {node} (from 0): its temperature is {}, beyond ±1,000,000 °C", plain(*t)))
}

fn conditions_size(given: &Given) -> Option<String> {
    let layout = Layout::of_accepted(given.head);
    Some(format!(
        "the conditions have {} bytes, where a zone of {} elements takes {}",
        given.conditions.len(),
        layout.elements(),
        layout.conditions_len()
    ))
}

fn conditions_form(given: &Given) -> Option<String> {
    if let Some(fault) = rate_code(given.conditions.get(RATE_CODE..COMMON_SIZE)?, given.fixed_rate)
    {
        return Some(fault);
    }
    let layout = Layout::of_accepted(given.head);
    layout.treatments().iter().enumerate().find_map(|(i, &treatments)| {
        let open = *given.conditions.get(COMMON_SIZE + ElementHour::SIZE * (i + 1) - 1)?;
        let text = format!("it has {}, but open is {open}", treatments_text(treatments));
        (!OPEN[treatments.min(4)].contains(open as f64)).then(|| at_element(i as u32 + 1, &text))
    })
}

/// What is wrong with the rate code and the rates behind it. Of a fixed rate that is retired it is said how the
/// same hour is written.
fn rate_code(rates: &[u8], fixed_rate: FixedRate) -> Option<String> {
    match (rates[0], fixed_rate) {
        (1, _) => None,
        (0, FixedRate::StillTaken) => (rates[9..] != [0; 8])
            .then(|| "a fixed rate has a second rate that is not all zero bits".into()),
        (0, FixedRate::Retired) => {
            let rate = f64_at(rates, 1);
            let rate = if RATE.contains(rate) { plain(rate) } else { "that rate".into() };
            Some(format!(
                "the fixed rate (rate code 0) is retired: the same hour has target and windows open both {rate}"
            ))
        }
        (code, FixedRate::StillTaken) => {
            Some(format!("the rate code is {code}, not 0 (fixed) or 1 (target and open)"))
        }
        (code, FixedRate::Retired) => {
            Some(format!("the rate code is {code}, not 1 (target and open)"))
        }
    }
}

fn conditions_fault(given: &Given, index: u32) -> Option<String> {
    let [gains, fraction, rate] = given.own.unwrap_or([0.0; 3]);
    let mut values = conditions_values(given.conditions);
    let own = [
        ("gains_heat_cool", gains, GAINS),
        ("frac_convective", fraction, FRACTION),
        ("ach", rate, RATE),
    ];
    values.extend(own.map(|(name, value, range)| Value {
        index: 0,
        name: name.into(),
        value,
        range,
    }));
    first_fault(&values, index)
}

fn limits(given: &Given) -> Option<String> {
    let Limits { heating, cooling } = given.limits?;
    let both = [("heating_limit", heating), ("cooling_limit", cooling)];
    let values =
        both.map(|(name, value)| Value { index: 0, name: name.into(), value, range: POWER_LIMIT });
    first_fault(&values, 0)
}

fn question(given: &Given) -> Option<String> {
    let value = |(name, value): &(&str, f64)| Value {
        index: 0,
        name: name.to_string(),
        value: *value,
        range: QUESTION,
    };
    let values: Vec<Value> = given.asked.iter().map(value).collect();
    let crossed = || match values.as_slice() {
        [low, high] => Some(format!(
            "the band's lower end {} °C is above its upper end {} °C",
            plain(low.value),
            plain(high.value)
        )),
        _ => None,
    };
    first_fault(&values, 0).or_else(crossed)
}

/// Where the heating setpoint stands in the conditions of an hour; cooling and ventilation follow it.
const HOUR_SETPOINTS: usize = 48;
/// Where the first set temperature stands in a head; the first ventilation setpoint follows it.
const HEAD_SETPOINTS: usize = 41;

/// The heating setpoint at `at`, and the one so many places behind it that lies below.
fn setpoints(name: &str, bytes: &[u8], at: usize, behind: usize) -> Option<String> {
    let other = at + 8 * behind;
    if bytes.len() < other + 8 {
        return None;
    }
    Some(format!(
        "the {name} setpoint {} °C is below the heating setpoint {} °C",
        plain(f64_at(bytes, other)),
        plain(f64_at(bytes, at))
    ))
}
