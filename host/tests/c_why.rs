//! Why an hour has its rate and its load, at the C interface: what the demand refuses is refused with the same
//! number and index, and then nothing is written.
#[path = "common/generated.rs"]
mod generated;
#[path = "common/lent.rs"]
mod lent;

use generated::Chance;
use hem_zone::ffi::TEMPS;
use hem_zone::samples::{element_hour_p, hour_p, house_p};
use hem_zone::{AirChangesPerHour, Conditions, Head, Kind, Load, Pane, RateReason, NO_CONTROL};
use lent::*;

/// What a call is given.
#[derive(Clone)]
struct Given {
    head: Vec<u8>,
    cond: Vec<u8>,
    temps: [f64; TEMPS],
    nodes: u64,
}

impl Given {
    /// All nodes at one temperature.
    fn new(head: &Head, hour: &Conditions, temp: f64) -> Self {
        let nodes = |kind: &Kind| if matches!(kind, Kind::Transparent(_)) { 2 } else { 5 };
        let nodes = 1 + head.elements.iter().map(|element| nodes(&element.kind)).sum::<u64>();
        Self { head: head.to_bytes(), cond: hour.to_bytes(), temps: [temp; TEMPS], nodes }
    }

    fn with(&self, change: impl FnOnce(&mut Self)) -> Self {
        let mut given = self.clone();
        change(&mut given);
        given
    }

    fn lent(&self) -> Lent {
        let mut lent = Lent::new(0);
        (lent.temps, lent.nodes) = (self.temps, self.nodes);
        lent
    }
}

/// The conditions with a fixed rate as target and as windows open, which the demand takes.
fn rate_twice(given: &Given) -> Given {
    given.with(|g| {
        if g.cond.len() >= 113 && g.cond[96] == 0 && g.cond[105..113] == [0; 8] {
            g.cond[96] = 1;
            g.cond.copy_within(97..105, 105);
        }
    })
}

/// The answer of the demand, which `hem_why` must give too, of a fixed rate that of the rate twice. Where it is
/// refused nothing is written, else nothing but the reason and the load, which is that of the demand.
#[track_caller]
fn answer_of(given: &Given) -> u32 {
    let mut demanded = given.lent();
    let answer = demand(&given.head, &rate_twice(given).cond, &mut demanded);
    if answer != 0 {
        refused(given.lent(), answer, |lent| why(&given.head, &given.cond, lent));
        return answer;
    }
    let (mut asked, (reason, load)) = (given.lent(), told(given));
    let before = asked.seen();
    assert_eq!(why(&given.head, &given.cond, &mut asked), 0);
    assert_eq!((asked.reason, asked.load), (reason, load), "the same again");
    (asked.reason, asked.load) = (MARK_COUNT, MARK_COUNT);
    assert!(asked.seen() == before, "more was written than the reason and the load");
    let [heating, cooling, ..] = demanded.out;
    assert_eq!(load, if heating > 0.0 { 1 } else { 2 * u64::from(cooling < 0.0) });
    assert!((1..=6).contains(&reason));
    0
}

/// Reason and load of an hour that is accepted.
#[track_caller]
fn told(given: &Given) -> (u64, u64) {
    let mut lent = given.lent();
    assert_eq!(why(&given.head, &given.cond, &mut lent), 0);
    (lent.reason, lent.load)
}

// ---- House P ----

fn windows(ach_target: f64, ach_windows_open: f64) -> AirChangesPerHour {
    AirChangesPerHour::TargetAndWindowsOpen { ach_target, ach_windows_open }
}

#[test]
fn why_of_house_p() {
    let given = |hour: &Conditions, temp| Given::new(&house_p(), hour, temp);
    let (none, heated, cooled) = (hour_p(20.0, 24.0), hour_p(21.0, 24.0), hour_p(15.0, 19.0));
    for (hour, load) in [(none, Load::Neither), (heated, Load::Heating), (cooled, Load::Cooling)] {
        let one_rate = given(&hour, 20.0);
        let fixed = one_rate.with(|g| g.cond[96] = 0);
        for given in [one_rate, fixed] {
            assert_eq!(told(&given), (RateReason::NoChoice.number(), load as u64));
            assert_eq!(answer_of(&given), 0);
        }
    }
    let open =
        Conditions { temp_setpnt_cool_vent: 22.0, ach: windows(0.0, 10.0), ..hour_p(18.0, 24.0) };
    assert_eq!(told(&given(&open, 26.0)), (RateReason::WindowsEnough.number(), 0));
    assert_eq!(answer_of(&given(&open, 26.0)), 0);
    // The places behind the nodes are not looked at.
    assert_eq!(answer_of(&given(&open, 26.0).with(|g| g.temps[3..].fill(f64::NAN))), 0);
}

// ---- refusals ----

/// Two windows of House P, the second with one treatment.
fn house() -> Head {
    let mut head = house_p();
    let mut second = head.elements[0].clone();
    second.kind = Kind::Transparent(Pane { k_pli: [0.0, 3600.0], h_pli: 1.0, delta_r: vec![0.1] });
    head.elements.push(second);
    head
}

fn hour() -> Conditions {
    let elements = vec![element_hour_p(); 2];
    Conditions { elements, ach: windows(0.5, 4.0), ..hour_p(20.0, 24.0) }
}

/// Where the second element of the head begins, and its part of the conditions.
const SECOND: usize = 57 + 123;
const SECOND_HOUR: usize = 113 + 41;

fn spoil(bytes: &mut [u8], at: usize, with: f64) {
    bytes[at..at + 8].copy_from_slice(&with.to_be_bytes());
}

type Change = fn(&mut Given);

#[test]
fn what_is_no_head_no_state_or_no_hour() {
    let good = Given::new(&house(), &hour(), 20.0);
    assert_eq!(answer_of(&good), 0);
    assert_eq!(answer_of(&good.with(|g| g.head.truncate(200))), 1);
    let changes: [(u32, Change); 18] = [
        (1, |g| g.head.clear()),
        (2, |g| g.head[2] = 255),
        (3, |g| g.head[4] = 2),
        (4, |g| g.head[5] = 2),
        (4 + 2 * 256, |g| g.head[SECOND] = 6),
        (5, |g| spoil(&mut g.head, 17, 0.0)),
        (5 + 2 * 256, |g| spoil(&mut g.head, SECOND + 2, -1.0)),
        (6, |g| g.nodes = 4),
        (6, |g| g.nodes = u64::MAX),
        (6, |g| g.temps[0] = f64::NAN),
        (6, |g| g.temps[4] = f64::INFINITY),
        (6, |g| g.temps[2] = -1e6_f64.next_up()),
        (7, |g| g.cond.clear()),
        (7, |g| g.cond.push(0)),
        (8, |g| g.cond[96] = 2),
        (8, |g| g.cond[SECOND_HOUR + 40] = 2),
        (9, |g| spoil(&mut g.cond, 105, f64::NAN)),
        (9 + 2 * 256, |g| spoil(&mut g.cond, SECOND_HOUR, 101.0)),
    ];
    for (place, (answer, change)) in changes.into_iter().enumerate() {
        assert_eq!(answer_of(&good.with(change)), answer, "change {place}");
        // All that comes later is wrong too.
        for (_, later) in
            changes[place + 1..].iter().filter(|(other, _)| other & 255 > answer & 255)
        {
            assert_eq!(answer_of(&good.with(later).with(change)), answer, "change {place}");
        }
    }
    // Code 0 is answered for; its second float must be zero bits, though it is no rate.
    let fixed = good.with(|g| g.cond[96..113].fill(0));
    assert_eq!(answer_of(&fixed), 0);
    refused(fixed.lent(), 8, |lent| demand(&fixed.head, &fixed.cond, lent));
    for at in 105..113 {
        assert_eq!(answer_of(&fixed.with(|g| g.cond[at] = 0x80)), 8);
        // All that comes later is wrong too.
        let spoilt = fixed.with(|g| (g.cond[at], g.cond[97]) = (1, 0xFF));
        assert_eq!(answer_of(&spoilt), 8);
    }
    assert_eq!(answer_of(&fixed.with(|g| g.cond[97] = 0x80)), 0);
    assert_eq!(answer_of(&fixed.with(|g| spoil(&mut g.cond, 97, -1.0))), 9);
}

/// House P with little to hold its temperature.
fn light() -> Head {
    let mut head = house_p();
    let Kind::Transparent(pane) = &mut head.elements[0].kind else { unreachable!() };
    pane.k_pli = [0.0, 0.0];
    Head { tb_heat_trans_coeff: 0.0, useful_area: 0.001, ..head }
}

#[test]
fn what_the_calculation_refuses() {
    let asked = |head: &Head, hour: Conditions| answer_of(&Given::new(head, &hour, 20.0));
    assert_eq!(asked(&house_p(), hour_p(22.0, 21.0)), 10);
    let vent = |setpoint| Conditions { temp_setpnt_cool_vent: setpoint, ..hour_p(22.0, 23.0) };
    assert_eq!(asked(&house_p(), vent(21.0)), 11);
    assert_eq!(asked(&house_p(), Conditions { temp_setpnt_cool: 20.0, ..vent(21.0) }), 10);
    let mut without_loss = light();
    (without_loss.elements[0].h_ce, without_loss.useful_area) = (0.0, 1e-20);
    assert_eq!(asked(&without_loss, hour_p(20.0, 24.0)), 12);
    let hot = Conditions { gains_heat_cool_convective: 1e7, ..hour_p(20.0, NO_CONTROL) };
    assert_eq!(asked(&light(), hot.clone()), 13);
    assert_eq!(asked(&Head { useful_area: 1e-12, ..house_p() }, hour_p(21.0, 24.0)), 14);
    // At the higher rate alone it is not too hot. The demand is calculated with windows open too, though no
    // ventilation is asked for; and with the load, though the reason is known without it.
    let at = |ach| Conditions { ach, ..hot.clone() };
    assert_eq!(asked(&light(), at(windows(1000.0, 1000.0))), 0);
    assert_eq!(asked(&light(), at(windows(1000.0, 0.0))), 13);
    let mut large = Head { useful_area: 1e5, ..light() };
    large.elements[0].area = 0.1;
    let radiant = |heat| Conditions { frac_convective_heat: 0.0, ..hour_p(heat, 24.0) };
    assert_eq!(asked(&large, radiant(19.0)), 0);
    assert_eq!(asked(&large, radiant(21.0)), 13);
}

// ---- damage ----

/// Values of a float that tests turn on.
const TURNS: [f64; 12] =
    [0.0, -0.0, 5e-324, 1.0, 20.0, -1.0, 1e3, 1e6, 1e7, NO_CONTROL, f64::INFINITY, f64::NAN];

/// A byte string that is shorter, or has another byte, often one of the first.
fn damage(bytes: &mut Vec<u8>, chance: &mut Chance) {
    let most = chance.one_of(&[7, bytes.len() as u64]);
    let at = chance.below(most) as usize;
    match chance.below(4) {
        0 => bytes.truncate(at),
        1 => bytes[at] = chance.next() as u8,
        _ => bytes[at] ^= 1 << chance.below(8),
    }
}

/// One thing is wrong, or may be: a byte, a length, a value of zone or hour, a temperature.
fn damaged(mut given: Given, chance: &mut Chance) -> Given {
    let turn = chance.one_of(&TURNS);
    match chance.below(6) {
        0 => damage(&mut given.head, chance),
        1 => damage(&mut given.cond, chance),
        2 => spoil(&mut given.head, 9 + 8 * chance.below(6) as usize, turn),
        3 => given.temps[chance.below(given.nodes) as usize] = turn,
        _ => spoil(&mut given.cond, 8 * chance.below(12) as usize, turn),
    }
    given
}

#[test]
fn damaged_bytes_are_answered_as_by_the_demand() {
    let (mut chance, mut met) = (Chance(83), [0; 15]);
    for _ in 0..5000 {
        let head = chance.head();
        let given = Given::new(&head, &chance.hour(&head), 20.0);
        met[(answer_of(&damaged(given, &mut chance)) & 255) as usize] += 1;
    }
    assert!(met.iter().all(|count| *count > 0), "{met:?}");
}
