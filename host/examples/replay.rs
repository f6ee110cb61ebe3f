//! Lays the engine beside stored answers of the original, bit for bit.
//!
//!     cargo run --release --offline --example replay CASES ANSWERS
//!
//! A case is: a byte that names the call (1 demand, 2 update, 3 start-up, 4 hour step of entry version 1,
//! 5 start-up with its passes, 6 hour step of entry version 2, 7 of entry version 3), a 4-byte length and
//! the head, a 2-byte count and the node temperatures, a 4-byte length and the conditions, for 2 gains,
//! fraction and rate, and for 7 greatest heating and cooling; all big-endian. Its answer is a line: floats
//! as 16 hexadecimal digits, or the original's error. The original shares all power by the heating
//! fraction, as version 1 does; its answer to 6 is the one that it gives where a cooled hour has the
//! cooling fraction in the place of the heating fraction, and its answer to 7 that with the limit in the
//! place of a power beyond it. The original's heat balance has 25 values; the convective heat by direction
//! is worked out from the temperatures of its answer. The answer to 1 may have two words more, reason and load
//! as numbers, worked out from temperatures of the original (crates/replay/answer_cases.py writes them): then
//! the demand is asked for both, and they are counted. An answer of the original that the engine refuses with
//! 12 or 13 is no difference: the original tests for less. Signs of zeros are counted for themselves. An hour
//! with the fixed rate, code 0, is asked with code 1 and this rate as target and with windows open, to which the
//! original gives the same answer; as it stands the call must refuse it with 8, and why must be answered as with
//! the rate twice.
#[path = "../tests/common/convection.rs"]
mod convection;

use convection::{by_direction, terms};
use hem_zone::{
    Demand, Head, HeatBalance, Limits, Load, RateReason, Refusal, Rule, State, Why, Zone,
    ENTRY_VERSION_1, ENTRY_VERSION_2,
};
use std::process::ExitCode;

/// Values of the original's heat balance, and those of them that stand behind the internal boundary.
const BALANCE: usize = 25;
const EXTERNAL: usize = 14;
/// Words of the original's demand; behind them may stand reason and load.
const DEMAND: usize = 4;
/// In an hour's conditions: the rate code and the two rates.
const RATE_CODE: usize = 96;
const RATE: usize = 97;
const SECOND_RATE: usize = 105;
/// What the fixed rate is refused with.
const RETIRED: u32 = 8;

struct Case<'a> {
    call: u8,
    head: &'a [u8],
    state: State,
    conditions: &'a [u8],
    own: Vec<f64>,
}

/// Takes the first bytes off a byte string.
fn take<'a>(bytes: &mut &'a [u8], count: usize) -> Option<&'a [u8]> {
    let (taken, rest) = bytes.split_at_checked(count)?;
    *bytes = rest;
    Some(taken)
}

/// Takes a big-endian number off.
fn number(bytes: &mut &[u8], size: usize) -> Option<usize> {
    let taken = take(bytes, size)?;
    Some(taken.iter().fold(0, |n, byte| n << 8 | *byte as usize))
}

fn floats(bytes: &mut &[u8], count: usize) -> Option<Vec<f64>> {
    (0..count).map(|_| Some(f64::from_bits(number(bytes, 8)? as u64))).collect()
}

impl<'a> Case<'a> {
    fn read(bytes: &mut &'a [u8]) -> Option<Self> {
        let call = number(bytes, 1)? as u8;
        let head_len = number(bytes, 4)?;
        let head = take(bytes, head_len)?;
        let nodes = number(bytes, 2)?;
        let state = State::new(&floats(bytes, nodes)?);
        let conditions_len = number(bytes, 4)?;
        let conditions = take(bytes, conditions_len)?;
        let own = match call {
            2 => floats(bytes, 3)?,
            7 => floats(bytes, 2)?,
            _ => vec![],
        };
        Some(Self { call, head, state, conditions, own })
    }

    /// The rule of an hour step.
    fn rule(&self) -> Rule {
        match (self.call, &self.own[..]) {
            (4, _) => ENTRY_VERSION_1.into(),
            (7, &[heating, cooling]) => Limits { heating, cooling }.into(),
            _ => ENTRY_VERSION_2.into(),
        }
    }

    /// What the original answered, in the engine's order.
    fn stored(&self, line: &str) -> Result<Vec<f64>, &'static [u32]> {
        let mut values = stored(self.call, line)?;
        let (before, end) = (self.state.temps(), values.len());
        let has_balance = matches!(self.call, 2 | 4 | 6 | 7) && end >= before.len() + BALANCE;
        if let (true, Ok(head)) = (has_balance, Head::from_bytes(self.head)) {
            let after = &values[end - BALANCE - before.len()..end - BALANCE];
            let sums = by_direction(&terms(&head, before, after));
            values.splice(end - EXTERNAL..end - EXTERNAL, sums);
        }
        Ok(values)
    }

    /// Whether an answer has reason and load.
    fn has_reason(&self, line: &str) -> bool {
        self.call == 1 && line.split(' ').count() == DEMAND + 2
    }

    /// Whether the call refuses the hour as it stands, and why is what it is with the rate twice.
    fn is_retired(&self, twice: &[u8]) -> bool {
        let Ok(zone) = Zone::from_head(self.head) else { return false };
        let refusal = match self.call {
            1 => zone.space_heat_cool_demand(&self.state, self.conditions).err(),
            _ => self.ask(self.conditions, "").err(),
        };
        let why = |conditions: &[u8]| zone.why(&self.state, conditions);
        refusal.is_some_and(|r| r.number() == RETIRED) && why(self.conditions) == why(twice)
    }

    /// The engine's values, in the order of the answers; a trigger that is absent is a NaN.
    fn ask(&self, conditions: &[u8], line: &str) -> Result<Vec<f64>, Refusal> {
        let zone = Zone::from_head(self.head)?;
        match self.call {
            1 => {
                let asked = zone.space_heat_cool_demand(&self.state, conditions);
                let why = zone.why(&self.state, conditions);
                let mut values = demand_and_why(asked, why)?;
                values.truncate(if self.has_reason(line) { values.len() } else { DEMAND });
                Ok(values)
            }
            2 => {
                let [gains, fraction, rate] = self.own[..] else { unreachable!() };
                let after =
                    zone.update_temperatures(&self.state, conditions, gains, fraction, rate)?;
                Ok(updated(&after.0, &after.1))
            }
            4 | 6 | 7 => {
                let (state, met, balance) = zone.hour_step(&self.state, conditions, self.rule())?;
                Ok([demand(&met), updated(&state, &balance)].concat())
            }
            _ => Ok(zone.start_up()?.temps().to_vec()),
        }
    }
}

/// Of an hour with the fixed rate the same with code 1, the rate twice.
fn rate_twice(conditions: &[u8]) -> Option<Vec<u8>> {
    if conditions.get(RATE_CODE) != Some(&0) {
        return None;
    }
    let mut twice = conditions.to_vec();
    twice[RATE_CODE] = 1;
    twice.copy_within(RATE..SECOND_RATE, SECOND_RATE);
    Some(twice)
}

/// A demand's values, and reason and load by the bits of their numbers. None, which is no answer of the
/// original, where only one of the two is refused or each otherwise.
fn demand_and_why(
    asked: Result<Demand, Refusal>,
    why: Result<Why, Refusal>,
) -> Result<Vec<f64>, Refusal> {
    match (asked, why) {
        (Ok(asked), Ok(why)) => {
            let numbers = [why.reason.number(), why.load as u64].map(f64::from_bits);
            Ok([demand(&asked), numbers.to_vec()].concat())
        }
        (Err(asked), Err(why)) if asked == why => Err(asked),
        _ => Ok(vec![]),
    }
}

fn demand(d: &Demand) -> Vec<f64> {
    let trigger = d.ach_to_trigger_heating.unwrap_or(f64::NAN);
    vec![d.space_heat_demand, d.space_cool_demand, d.ach_cooling, trigger]
}

fn updated(state: &State, balance: &HeatBalance) -> Vec<f64> {
    let parts = [
        balance.air_node.named(),
        balance.internal_boundary.named(),
        balance.external_boundary.named(),
    ];
    let values = parts.concat().into_iter().map(|(_, value)| value);
    state.temps().iter().copied().chain(values).collect()
}

/// The values of an answer, or the numbers that its error may have.
fn stored(call: u8, line: &str) -> Result<Vec<f64>, &'static [u32]> {
    let errors: [(&str, &[u32]); 6] = [
        ("err Cooling setpoint", &[10]),
        ("err Setpoint for additional", &[11]),
        ("err Detected", &[12, 13]),
        ("err Divide-by-zero", &[14, 12, 13]),
        ("panic", &[12, 13]),
        ("limit", &[15, 12, 13]),
    ];
    if let Some((_, numbers)) = errors.iter().find(|(start, _)| line.starts_with(start)) {
        return Err(numbers);
    }
    // The passes of start-up are not told by the engine.
    let words = line.split(' ').skip((call == 5) as usize);
    Ok(words.map(|w| u64::from_str_radix(w, 16).map_or(f64::NAN, f64::from_bits)).collect())
}

#[derive(Default, Debug)]
struct Tally {
    same: usize,
    zero_signs: usize,
    refused_by_both: usize,
    refused_by_engine: usize,
    different: usize,
    /// Hours with the fixed rate; those that are not refused as they should be are different too.
    fixed_rate: usize,
    /// Demands with a reason: for each of the six how many with neither load, heating and cooling.
    why: [[usize; Load::ALL.len()]; RateReason::ALL.len()],
}

fn same_bits(a: &[f64], b: &[f64]) -> bool {
    let same = |(a, b): (&f64, &f64)| a.to_bits() == b.to_bits() || (a.is_nan() && b.is_nan());
    a.len() == b.len() && a.iter().zip(b).all(same)
}

fn same_values(a: &[f64], b: &[f64]) -> bool {
    let same = |(a, b): (&f64, &f64)| a == b || (a.is_nan() && b.is_nan());
    a.len() == b.len() && a.iter().zip(b).all(same)
}

impl Tally {
    fn add(&mut self, place: usize, case: &Case, line: &str) {
        let twice = rate_twice(case.conditions);
        if let Some(twice) = &twice {
            self.count_fixed_rate(place, case, twice);
        }
        let (engine, call) =
            (case.ask(twice.as_deref().unwrap_or(case.conditions), line), case.call);
        self.count_why(case, line, &engine);
        let kind = match (&engine, case.stored(line)) {
            (Ok(a), Ok(b)) if same_bits(a, &b) => &mut self.same,
            (Ok(a), Ok(b)) if same_values(a, &b) => &mut self.zero_signs,
            (Err(r), Err(numbers)) if numbers.contains(&r.number()) => &mut self.refused_by_both,
            (Err(r), Ok(_)) if matches!(r.number(), 12 | 13) => &mut self.refused_by_engine,
            _ => {
                println!("case {place} (call {call}): the engine {engine:?}, the original {line}");
                &mut self.different
            }
        };
        *kind += 1;
    }

    fn count_fixed_rate(&mut self, place: usize, case: &Case, twice: &[u8]) {
        self.fixed_rate += 1;
        if !case.is_retired(twice) {
            println!("case {place} (call {}): the fixed rate is taken otherwise", case.call);
            self.different += 1;
        }
    }

    fn count_why(&mut self, case: &Case, line: &str, engine: &Result<Vec<f64>, Refusal>) {
        if let (true, Ok([.., reason, load])) = (case.has_reason(line), engine.as_deref()) {
            self.why[reason.to_bits() as usize - 1][load.to_bits() as usize] += 1;
        }
    }
}

fn replay(cases: &[u8], answers: &str) -> Option<Tally> {
    let (mut tally, mut rest, mut lines) = (Tally::default(), cases, answers.lines());
    let mut place = 0;
    while !rest.is_empty() {
        let case = Case::read(&mut rest)?;
        tally.add(place, &case, lines.next()?);
        place += 1;
    }
    Some(tally)
}

fn main() -> ExitCode {
    let words: Vec<String> = std::env::args().skip(1).collect();
    let [cases, answers] = &words[..] else {
        eprintln!("usage: replay CASES ANSWERS");
        return ExitCode::from(2);
    };
    let (Ok(cases), Ok(answers)) = (std::fs::read(cases), std::fs::read_to_string(answers)) else {
        eprintln!("replay: a file cannot be read");
        return ExitCode::from(2);
    };
    let Some(tally) = replay(&cases, &answers) else {
        eprintln!("replay: the cases or the answers end early");
        return ExitCode::from(2);
    };
    println!("{tally:?}");
    ExitCode::from((tally.different > 0) as u8)
}
