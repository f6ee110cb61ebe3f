//! Why an hour has its rate and its load: the engine's answer beside one that is worked out here, for many
//! houses and hours whose setpoints lie where the tests of a reason turn.
#[path = "common/generated.rs"]
mod generated;
#[path = "common/softened.rs"]
mod softened;
#[path = "common/why.rs"]
mod why;

use generated::Chance;
use hem_zone::{AirChangesPerHour, Conditions, Head, State, Zone, NO_CONTROL};
use softened::{soft_head, soft_hour};
use why::{look, Asked, Met};

// ---- rates ----

fn windows(ach_target: f64, ach_windows_open: f64) -> AirChangesPerHour {
    AirChangesPerHour::TargetAndWindowsOpen { ach_target, ach_windows_open }
}

/// A fixed rate, two equal ones, a target above the windows' rate, two rates that are hardly apart, usual ones.
fn rates(chance: &mut Chance) -> AirChangesPerHour {
    let (low, high) = (chance.one_of(&[0.0, 0.0, 0.5]), chance.number(1.0, 8.0));
    match chance.below(12) {
        0 => AirChangesPerHour::Cooling { ach_cooling: chance.one_of(&[low, high, -0.0]) },
        1 => windows(high, high),
        2 => chance.one_of(&[windows(0.0, -0.0), windows(-0.0, 0.0)]),
        3 => windows(high, low),
        4 => chance.one_of(&[windows(high, high.next_up()), windows(low, low + 1e-9)]),
        _ => windows(low, high),
    }
}

// ---- setpoints where the tests turn ----

/// A number near another: itself, its neighbours, some at the edges of the two closenesses, or further away.
fn near(x: f64, chance: &mut Chance) -> f64 {
    let distance = match chance.below(5) {
        0 => return chance.one_of(&[x, x.next_up(), x.next_down()]),
        1 => chance.one_of(&[1e-8, 1e-10]),
        2 => x.abs() * chance.one_of(&[1e-9, 1e-10]),
        3 => 1e-8 + x.abs() * 1e-9,
        _ => chance.number(0.0, 3.0),
    };
    x + distance * chance.one_of(&[-1.1, -0.999, -0.3, 0.3, 0.999, 1.1])
}

/// Puts the setpoints, and the supplied air where it does not move the free temperature, near what they are
/// held against. Where a step on the way there is refused, the hour is left as far as it came.
fn to_the_edges(asked: &mut Asked, chance: &mut Chance) -> Option<()> {
    let AirChangesPerHour::TargetAndWindowsOpen { ach_target: target, ach_windows_open: open } =
        asked.hour.ach
    else {
        return None;
    };
    if target == 0.0 && chance.below(2) == 0 {
        let air = asked.free(target).ok()?.air;
        asked.hour.avg_air_supply_temp = near(air, chance).clamp(-100.0, 100.0);
    }
    let (free, with_open) = (asked.free(target).ok()?, asked.free(open).ok()?);
    let between = (free.control + with_open.control) / 2.0;
    let vent = chance.one_of(&[free.control, with_open.control, between, between]);
    asked.hour.temp_setpnt_cool_vent = near(vent, chance).max(-273.15);
    let vent = asked.hour.temp_setpnt_cool_vent;
    let found = asked.free(asked.ach_to_reach(vent, (target, free), (open, with_open))).ok()?;
    let cool = chance.one_of(&[found.control, found.control, free.control, NO_CONTROL]);
    asked.hour.temp_setpnt_cool = near(cool, chance).clamp(-273.15, NO_CONTROL);
    below_both(&mut asked.hour, chance);
    Some(())
}

/// A heating setpoint at or below the other two.
fn below_both(hour: &mut Conditions, chance: &mut Chance) {
    let most = hour.temp_setpnt_cool.min(hour.temp_setpnt_cool_vent).min(100.0);
    let lower = near(most, chance).min(most);
    hour.temp_setpnt_heat = chance.one_of(&[most, lower, most - 5.0]).max(-273.15);
}

// ---- houses ----

/// Temperatures near one of these, so that the closenesses have to do with small and large ones.
fn state(nodes: usize, chance: &mut Chance) -> State {
    let base = chance.one_of(&[20.0, 20.0, 26.0, 5.0, 0.5, -3.0, 400.0, 20_000.0]);
    let temp = |_| base + chance.one_of(&[0.0, 0.01, -0.01, 0.7, -0.7, 4.0, -4.0]);
    State::new(&(0..nodes).map(temp).collect::<Vec<_>>())
}

/// Hours of a house, each from a state of its own.
fn run(head: &Head, hours: Vec<Conditions>, edges: bool, chance: &mut Chance, met: &mut Met) {
    let zone = Zone::new(head).unwrap();
    for hour in hours {
        let before = state(zone.layout().nodes(), chance);
        let mut asked = Asked { head, zone: &zone, before: &before, hour };
        if edges {
            asked.hour.ach = rates(chance);
            to_the_edges(&mut asked, chance);
        }
        look(&asked, met);
    }
}

/// Gains of heating or cooling that an update takes too: both of one sign.
fn of_one_sign(hour: &mut Conditions) {
    let sign = hour.gains_heat_cool_convective;
    hour.gains_heat_cool_radiative = hour.gains_heat_cool_radiative.abs().copysign(sign);
}

/// Each reason, from 1, beside each of these loads at least so often.
#[track_caller]
fn at_least(met: &Met, least: [[usize; 3]; 6]) {
    for (reason, (pairs, least)) in met.pairs.iter().zip(least).enumerate() {
        let enough = pairs.iter().zip(least).all(|(count, least)| *count >= least);
        assert!(enough, "reason {}: {met:?}", reason + 1);
    }
}

#[test]
fn houses_such_as_houses_are() {
    let (mut chance, mut met) = (Chance(80), Met::default());
    for _ in 0..1500 {
        let mut head = chance.head();
        soft_head(&mut head, &mut chance);
        let mut hours = chance.hours(&head, 8);
        for hour in &mut hours {
            soft_hour(hour, &mut chance);
            of_one_sign(hour);
        }
        run(&head, hours, true, &mut chance, &mut met);
    }
    // Neither, heating, cooling. Beside the last four heating stands by rounding alone: why_pairs.rs has it.
    at_least(&met, [[500; 3], [500; 3], [500, 0, 100], [100, 0, 20], [10, 0, 300], [1000, 0, 10]]);
    assert_eq!((met.not_worked, met.refused), (0, [0; 15]));
    assert!(met.bases.iter().flatten().all(|count| *count > 50), "{met:?}");
    assert!(met.fixed > 500, "{met:?}");
    // Where the target rate is the higher one, windows never cool.
    assert!(met.target_above[1..4].iter().all(|count| *count > 50), "{met:?}");
    assert_eq!(met.target_above[4..], [0, 0]);
}

#[test]
fn houses_of_all_ranges() {
    let (mut chance, mut met) = (Chance(81), Met::default());
    for _ in 0..1500 {
        let head = chance.head();
        let hours = chance.hours(&head, 8);
        let edges = chance.below(2) == 0;
        run(&head, hours, edges, &mut chance, &mut met);
    }
    at_least(&met, [[200; 3], [200; 3], [200, 0, 20], [50, 0, 10], [1, 0, 20], [200, 0, 0]]);
    assert_eq!(met.refused[..12], [0; 12]);
    assert!(met.refused[12..].iter().all(|count| *count > 5), "{met:?}");
    assert!(met.fixed > 500, "{met:?}");
    // Of most hours the gains of heating or cooling are such as an update takes.
    assert!(met.not_worked < met.pairs.iter().flatten().sum::<usize>() / 2, "{met:?}");
}
