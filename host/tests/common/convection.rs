//! The convective heat from the air to the inner surfaces, W, worked out apart from the engine: from a head
//! and the node temperatures before and after a step.
#![allow(dead_code)] // Each file uses a part of this.
use hem_zone::{BuildingElement, Head, Kind};

/// The direction of heat flow at an inner surface.
#[derive(Clone, Copy, Debug, PartialEq)]
pub enum Direction {
    Horizontal,
    Upwards,
    Downwards,
}

impl Direction {
    pub const ALL: [Self; 3] = [Self::Horizontal, Self::Upwards, Self::Downwards];

    fn of(pitch: f64, air: f64, surface: f64) -> Self {
        let inwards = air < surface;
        if (60.0..=120.0).contains(&pitch) {
            Self::Horizontal
        } else if (pitch < 60.0 && !inwards) || (pitch > 120.0 && inwards) {
            Self::Upwards
        } else {
            Self::Downwards
        }
    }

    /// W/(m².K)
    fn h_ci(self) -> f64 {
        match self {
            Self::Horizontal => 2.5,
            Self::Upwards => 5.0,
            Self::Downwards => 0.7,
        }
    }
}

/// What one element adds.
#[derive(Clone, Copy, Debug)]
pub struct Term {
    pub pitch: f64,
    /// By the temperatures before the step: it counts.
    pub direction: Direction,
    /// By those after it.
    pub direction_after: Direction,
    pub heat: f64,
}

fn nodes(element: &BuildingElement) -> usize {
    match element.kind {
        Kind::Transparent(_) => 2,
        _ => 5,
    }
}

/// The terms in the order of the elements. Air stands behind the nodes of all of them.
pub fn terms(head: &Head, before: &[f64], after: &[f64]) -> Vec<Term> {
    let air = head.elements.iter().map(nodes).sum::<usize>();
    let mut end = 0;
    let term = |element: &BuildingElement| {
        end += nodes(element);
        let direction = |temps: &[f64]| Direction::of(element.pitch, temps[air], temps[end - 1]);
        let h_ci = direction(before).h_ci();
        Term {
            pitch: element.pitch,
            direction: direction(before),
            direction_after: direction(after),
            heat: element.area * (h_ci * (after[air] - after[end - 1])),
        }
    };
    head.elements.iter().map(term).collect()
}

/// Added from +0.0 on, from the left to the right.
pub fn total<'a>(terms: impl IntoIterator<Item = &'a Term>) -> f64 {
    terms.into_iter().fold(0.0, |sum, term| sum + term.heat)
}

/// The sums of the three directions: horizontal, upwards, downwards.
pub fn by_direction(terms: &[Term]) -> [f64; 3] {
    Direction::ALL.map(|direction| total(terms.iter().filter(|term| term.direction == direction)))
}
