//! The rule that a command line names for the hours that are calculated: an entry version, or the limits of
//! a plant.
use crate::failure::Failure;
use crate::given::Words;
use crate::words::watts;
use hem_zone::{
    entry_versions_to, samples, Limits, Reason, Refusal, Rule, State, Zone, ENTRY_VERSION_3,
    NEWEST_ENTRY_VERSION,
};

const VERSION: &str = "entry-version";
const HEATING: &str = "heating-limit";
const COOLING: &str = "cooling-limit";

/// The rule that is named, if one is, before any file is read.
pub fn named(words: &Words) -> Result<Option<Rule>, Failure> {
    let version = words.number_of(VERSION, u64::MAX)?;
    let (heating, cooling) = (words.decimal_of(HEATING)?, words.decimal_of(COOLING)?);
    must_be_known(version)?;
    must_be_in_range(HEATING, heating, Limits::of_heating)?;
    must_be_in_range(COOLING, cooling, Limits::of_cooling)?;
    match (version, limits(heating, cooling)) {
        (Some(ENTRY_VERSION_3), None) => {
            Err(words.wrong(format!("--{VERSION} 3 needs --{HEATING}, --{COOLING} or both")))
        }
        (version, None) => Ok(version.map(Rule::from)),
        (None | Some(ENTRY_VERSION_3), Some(limits)) => Ok(Some(limits.into())),
        (Some(version), Some(_)) => {
            let option = if heating.is_some() { HEATING } else { COOLING };
            let text = format!("--{option} means entry version 3, but --{VERSION} is {version}");
            Err(words.wrong(text))
        }
    }
}

/// The limits of a plant, where one is given. The other is the greatest that there is.
fn limits(heating: Option<f64>, cooling: Option<f64>) -> Option<Limits> {
    heating.or(cooling)?;
    // −0 + 0 is 0: they are one plant.
    let given = |limit: Option<f64>| limit.unwrap_or(Limits::GREATEST) + 0.0;
    Some(Limits { heating: given(heating), cooling: given(cooling) })
}

/// Limits in words.
pub fn limits_in_words(limits: &Limits) -> String {
    let Limits { heating, cooling } = *limits;
    format!("heating at most {}, cooling at most {}", watts(heating), watts(cooling))
}

// ---- the engine's judgement ----

fn refused(refusal: Refusal) -> Failure {
    Failure::Refused(refusal.to_string())
}

/// Whether the engine turned a call away for the version that it named.
pub fn of_version(refusal: &Refusal) -> bool {
    refusal.reason() == Reason::FalseEntry
}

/// The version that is given must be one that hours have. The engine is asked by an hour of a sample house
/// without temperatures, which it refuses in any case: for its version first.
fn must_be_known(given: Option<u64>) -> Result<(), Failure> {
    let Some(version) = given else { return Ok(()) };
    let zone = Zone::new(&samples::house_p()).map_err(refused)?;
    match zone.hour_step(&State::new(&[]), &[], version) {
        Err(refusal) if of_version(&refusal) => Err(Failure::Refused(format!(
            "--{VERSION} is {version}, not {} (refusal {})",
            entry_versions_to(NEWEST_ENTRY_VERSION, "or"),
            refusal.number()
        ))),
        _ => Ok(()),
    }
}

/// A limit that is given must be one that hours may have. The engine is asked by a good hour of a sample
/// house, of which it can refuse nothing else.
fn must_be_in_range(
    option: &str,
    given: Option<f64>,
    limits: fn(f64) -> Limits,
) -> Result<(), Failure> {
    let Some(limit) = given else { return Ok(()) };
    let zone = Zone::new(&samples::house_p()).map_err(refused)?;
    let before = zone.start_up().map_err(refused)?;
    match zone.hour_step(&before, &samples::hour_p(20.0, 24.0), limits(limit)) {
        Err(refusal) if refusal.reason() == Reason::LimitValue => Err(Failure::Refused(format!(
            "--{option} is {}, out of its range 0 to {} (refusal {})",
            watts(limit),
            watts(Limits::GREATEST),
            refusal.number()
        ))),
        Err(refusal) => Err(refused(refusal)),
        Ok(_) => Ok(()),
    }
}
