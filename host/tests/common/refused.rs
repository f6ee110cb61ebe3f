//! A house and an hour with a place for every fault, and what its refusal has to say.
#![allow(dead_code)] // Each file of tests uses a part of this.
use hem_zone::samples::{element_hour_p, hour_p, house_p};
use hem_zone::*;

pub fn layers() -> Layers {
    Layers { k_pli: [10_000.0; 5], h_pli: [5.0; 4] }
}

/// A wall, the window of House P with two treatments, and a floor.
pub fn house() -> Head {
    let window = house_p().elements[0].clone();
    let pane = Pane { k_pli: [0.0, 0.0], h_pli: 2.0, delta_r: vec![0.1, 0.2] };
    let base = BuildingElement { h_ce: 20.0, h_re: 4.14, h_ri: 5.13, area: 10.0, ..window };
    Head {
        elements: vec![
            BuildingElement { kind: Kind::Opaque(layers()), ..base.clone() },
            BuildingElement { kind: Kind::Transparent(pane), ..base.clone() },
            BuildingElement { kind: Kind::Ground(layers()), pitch: 180.0, ..base },
        ],
        start_up_limit: 10_000,
        ..house_p()
    }
}

pub fn hour() -> Conditions {
    Conditions { elements: vec![element_hour_p(); 3], ..hour_p(18.0, 26.0) }
}

pub fn zone() -> Zone {
    Zone::new(&house()).unwrap()
}

pub fn twenty() -> State {
    State::new(&[20.0; 13])
}

#[track_caller]
pub fn is<T: std::fmt::Debug>(answer: Result<T, Refusal>, number: u32, index: u32, sentence: &str) {
    let refusal = answer.unwrap_err();
    assert_eq!(refusal.sentence(), sentence);
    assert_eq!((refusal.number(), refusal.index()), (number, index));
}

pub fn head_with(change: impl FnOnce(&mut Head)) -> Result<Zone, Refusal> {
    let mut head = house();
    change(&mut head);
    Zone::new(&head)
}

pub fn bytes_with(change: impl FnOnce(&mut Vec<u8>)) -> Result<Zone, Refusal> {
    let mut bytes = house().to_bytes();
    change(&mut bytes);
    Zone::from_head(&bytes)
}

/// The demand of an hour. Why it is what it is is refused alike, in the same words.
#[track_caller]
pub fn demand_of(zone: &Zone, before: &State, hour: &[u8]) -> Result<Demand, Refusal> {
    let demand = zone.space_heat_cool_demand(before, hour);
    assert_eq!(zone.why(before, hour).err(), demand.clone().err());
    demand
}

#[track_caller]
pub fn demand_with(change: impl FnOnce(&mut Conditions)) -> Result<Demand, Refusal> {
    let mut hour = hour();
    change(&mut hour);
    demand_of(&zone(), &twenty(), &hour.to_bytes())
}
