//! The convective heat to the inner surfaces by direction, held to the bit beside the same sums worked out
//! here from the head and the node temperatures before and after a step.
#[path = "common/convection.rs"]
mod convection;
#[path = "common/generated.rs"]
mod generated;
#[path = "common/softened.rs"]
mod softened;

use convection::{by_direction, terms, total, Direction, Term};
use generated::Chance;
use hem_zone::samples::{hour_p, house_p};
use hem_zone::{
    Conditions, Head, HeatBalance, Limits, Refusal, Rule, State, Zone, ENTRY_VERSION_1,
    ENTRY_VERSION_2,
};
use softened::{soft_head, soft_hour};

/// The total and the three sums of a balance, to the bit.
fn sums(balance: &HeatBalance) -> [u64; 4] {
    let part = balance.internal_boundary;
    [
        part.fabric_int_air_convective,
        part.fabric_int_air_convective_horizontal,
        part.fabric_int_air_convective_upwards,
        part.fabric_int_air_convective_downwards,
    ]
    .map(f64::to_bits)
}

/// The same of the terms.
fn expected(terms: &[Term]) -> [u64; 4] {
    let [horizontal, upwards, downwards] = by_direction(terms);
    [total(terms), horizontal, upwards, downwards].map(f64::to_bits)
}

// ---- one element ----

/// The numbers next to a positive one.
fn below(x: f64) -> f64 {
    f64::from_bits(x.to_bits() - 1)
}

fn above(x: f64) -> f64 {
    f64::from_bits(x.to_bits() + 1)
}

/// House P with its window at this pitch, the air at 20 °C and the inner surface at this temperature: the
/// sums of an hour in which the air gets 144 W, and the difference between air and surface after it.
fn one_element(pitch: f64, surface: f64) -> ([u64; 4], f64) {
    let mut head = house_p();
    head.elements[0].pitch = pitch;
    let (before, hour) = (State::new(&[20.0, surface, 20.0]), hour_p(20.0, 24.0));
    let zone = Zone::new(&head).unwrap();
    let (after, balance) = zone.update_temperatures(&before, &hour, 144.0, 1.0, 0.0).unwrap();
    (sums(&balance), after.temp_internal_air() - after.temps()[1])
}

#[test]
fn one_element_goes_to_the_sum_of_its_direction() {
    for (pitch, surface, place, h_ci) in [
        (60.0, 20.0, 1, 2.5),
        (90.0, 21.0, 1, 2.5),
        (120.0, 19.0, 1, 2.5),
        (below(60.0), 20.0, 2, 5.0),
        (0.0, below(20.0), 2, 5.0),
        (0.0, above(20.0), 3, 0.7),
        (below(60.0), 25.0, 3, 0.7),
        (above(120.0), 20.0, 3, 0.7),
        (180.0, below(20.0), 3, 0.7),
        (180.0, above(20.0), 2, 5.0),
        (above(120.0), 25.0, 2, 5.0),
    ] {
        let (sums, difference) = one_element(pitch, surface);
        let heat: f64 = h_ci * difference;
        assert_ne!(heat, 0.0);
        let mut only = [heat.to_bits(), 0, 0, 0];
        only[place] = heat.to_bits();
        assert_eq!(sums, only, "pitch {pitch}, surface {surface}");
    }
}

#[test]
fn the_direction_is_that_of_before_the_hour() {
    // The surface is warmer than the air, and after the hour colder. The heat goes with the flow that its
    // h_ci is for.
    for (pitch, place, h_ci) in [(0.0, 3, 0.7), (180.0, 2, 5.0)] {
        let (sums, difference) = one_element(pitch, 20.5);
        assert!(difference > 0.0);
        assert_eq!(sums[place], (h_ci * difference).to_bits(), "pitch {pitch}");
        assert_eq!(sums[5 - place], 0, "pitch {pitch}");
    }
}

// ---- many houses ----

/// What the houses and hours below met with.
#[derive(Debug, Default)]
struct Met {
    steps: [usize; 4],
    refused: usize,
    elements: [usize; 25],
    ceilings: [usize; 3],
    floors: [usize; 3],
    /// Terms whose direction by the temperatures after the step is another.
    turned: usize,
    /// Steps in which all three directions have terms.
    mixed: usize,
    limit_held: usize,
}

impl Met {
    fn note(&mut self, terms: &[Term]) {
        self.elements[terms.len()] += 1;
        for term in terms {
            let place = term.direction as usize;
            self.ceilings[place] += (term.pitch < 60.0) as usize;
            self.floors[place] += (term.pitch > 120.0) as usize;
            self.turned += (term.direction != term.direction_after) as usize;
        }
        let has = |direction| terms.iter().any(|term| term.direction == direction);
        self.mixed += Direction::ALL.into_iter().all(has) as usize;
    }
}

/// A house, and what it is asked.
struct Asked<'a> {
    head: &'a Head,
    zone: Zone,
    hour: Conditions,
}

impl Asked<'_> {
    /// Lays what a step gave beside the sums of its terms, and gives the state after it.
    fn look(
        &self,
        before: &State,
        step: Result<(State, HeatBalance), Refusal>,
        kind: usize,
        met: &mut Met,
    ) -> Option<State> {
        let Ok((after, balance)) = step else {
            met.refused += 1;
            return None;
        };
        let terms = terms(self.head, before.temps(), after.temps());
        assert_eq!(sums(&balance), expected(&terms), "{:?} {before:?} {:?}", self.head, self.hour);
        met.steps[kind] += 1;
        met.note(&terms);
        Some(after)
    }

    fn update(&self, before: &State, chance: &mut Chance, met: &mut Met) -> Option<State> {
        let (gains, share, rate) =
            (chance.number(-2000.0, 2000.0), chance.number(0.0, 1.0), chance.number(0.0, 3.0));
        let step = self.zone.update_temperatures(before, &self.hour, gains, share, rate);
        self.look(before, step, 0, met)
    }

    fn hour(&self, before: &State, rule: Rule, met: &mut Met) -> Option<State> {
        let step = self.zone.hour_step(before, &self.hour, rule);
        if let (Ok((_, demand, _)), Some(limits)) = (&step, rule.limits()) {
            met.limit_held += limits.held(demand.power(self.hour.delta_t_h)).is_some() as usize;
        }
        let step = step.map(|(after, _, balance)| (after, balance));
        self.look(before, step, rule.version() as usize, met)
    }

    /// An update and an hour of each version from the same state; the last that was accepted is gone on from.
    fn all(&self, before: State, chance: &mut Chance, met: &mut Met) -> State {
        let limits =
            Limits { heating: chance.number(0.0, 800.0), cooling: chance.number(0.0, 800.0) };
        let rules: [Rule; 3] = [ENTRY_VERSION_1.into(), ENTRY_VERSION_2.into(), limits.into()];
        let updated = self.update(&before, chance, met);
        let stepped = rules.map(|rule| self.hour(&before, rule, met));
        [updated].into_iter().chain(stepped).flatten().last().unwrap_or(before)
    }
}

/// Pitches around 60 and 120, and the ends.
fn pitch(chance: &mut Chance) -> f64 {
    let sixty = [below(60.0), 60.0, above(60.0)];
    let hundred_and_twenty = [below(120.0), 120.0, above(120.0)];
    match chance.below(6) {
        0 => chance.one_of(&sixty),
        1 => chance.one_of(&hundred_and_twenty),
        2 => chance.one_of(&[0.0, -0.0, 180.0]),
        _ => chance.number(0.0, 180.0),
    }
}

/// Temperatures near 20 °C, many of them the same.
fn state(chance: &mut Chance, nodes: usize) -> State {
    let temp = |_| 20.0 + chance.one_of(&[0.0, 0.0, 0.01, -0.01, 0.7, -0.7, 6.0, -6.0, 1e-14]);
    State::new(&(0..nodes).map(temp).collect::<Vec<_>>())
}

/// Hours of a house, each from the state that the one before left.
fn run(head: &Head, hours: Vec<Conditions>, chance: &mut Chance, met: &mut Met) {
    let zone = Zone::new(head).unwrap();
    let mut before = state(chance, zone.layout().nodes());
    for hour in hours {
        let asked = Asked { head, zone: zone.clone(), hour };
        before = asked.all(before, chance, met);
    }
}

#[test]
fn each_direction_of_many_houses_has_its_terms() {
    let (mut chance, mut met) = (Chance(411), Met::default());
    for house in 0..400 {
        let mut head = chance.head();
        head.elements.iter_mut().for_each(|element| element.pitch = pitch(&mut chance));
        let mut hours = chance.hours(&head, 4);
        // Of every four houses three have values such as houses have.
        if house % 4 != 0 {
            soft_head(&mut head, &mut chance);
            hours.iter_mut().for_each(|hour| soft_hour(hour, &mut chance));
        }
        let hours = hours.iter().map(Conditions::with_rate_twice).collect();
        run(&head, hours, &mut chance, &mut met);
    }
    assert!(met.steps.iter().all(|steps| *steps > 1000), "{met:?}");
    assert!(met.elements[1] > 0 && met.elements[24] > 0, "{met:?}");
    for [_, upwards, downwards] in [met.ceilings, met.floors] {
        assert!(upwards > 1000 && downwards > 1000, "{met:?}");
    }
    assert!(met.turned > 1000 && met.mixed > 1000 && met.limit_held > 100, "{met:?}");
}
