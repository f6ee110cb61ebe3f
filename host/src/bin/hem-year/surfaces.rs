//! The inner surfaces of a house by their pitch, in words: between what heat flows in each direction.
use crate::words::count;
use hem_zone::Head;
use std::ops::RangeInclusive;

/// The pitches of walls, degrees: what has less is a ceiling, what has more a floor.
const WALLS: RangeInclusive<f64> = 60.0..=120.0;

/// How many elements of a house are of which kind.
#[derive(Default)]
pub struct Surfaces {
    walls: usize,
    ceilings: usize,
    floors: usize,
}

impl Surfaces {
    pub fn of(head: &Head) -> Self {
        let mut surfaces = Self::default();
        for element in &head.elements {
            let kind = match element.pitch {
                pitch if WALLS.contains(&pitch) => &mut surfaces.walls,
                pitch if pitch < *WALLS.start() => &mut surfaces.ceilings,
                _ => &mut surfaces.floors,
            };
            *kind += 1;
        }
        surfaces
    }

    /// Between what heat flows horizontally, upwards and downwards.
    pub fn by_direction(&self) -> [String; 3] {
        let some = |number, name| (number > 0).then(|| count(number, name));
        let (ceilings, floors) = (some(self.ceilings, "ceiling"), some(self.floors, "floor"));
        [self.beside(), across(&ceilings, &floors), across(&floors, &ceilings)]
    }

    fn beside(&self) -> String {
        match self.walls {
            0 => "no walls and no windows".into(),
            1 => "into 1 wall or window, less what it gave to the air".into(),
            walls => format!("into {walls} walls and windows, less what they gave to the air"),
        }
    }
}

/// A direction in which the air gives heat to the first and gets some from the second.
fn across(into: &Option<String>, from: &Option<String>) -> String {
    match (into, from) {
        (Some(into), Some(from)) => format!("into {into}, less what {from} gave to the air"),
        (Some(into), None) => format!("into {into}"),
        (None, Some(from)) => format!("what {from} gave to the air, counted below 0"),
        (None, None) => "no ceilings and no floors".into(),
    }
}

#[cfg(test)]
mod tests {
    use super::*;
    use hem_zone::samples::house_p;

    fn words(pitches: &[f64]) -> [String; 3] {
        let mut head = house_p();
        let element = head.elements.remove(0);
        head.elements = vec![element; pitches.len()];
        head.elements.iter_mut().zip(pitches).for_each(|(element, pitch)| element.pitch = *pitch);
        Surfaces::of(&head).by_direction()
    }

    #[test]
    fn a_pitch_says_what_is_a_wall_a_ceiling_and_a_floor() {
        assert_eq!(
            words(&[60.0, 120.0, 60.0_f64.next_down(), 0.0, 120.0_f64.next_up()]),
            [
                "into 2 walls and windows, less what they gave to the air",
                "into 2 ceilings, less what 1 floor gave to the air",
                "into 1 floor, less what 2 ceilings gave to the air",
            ]
        );
    }

    #[test]
    fn what_a_house_has_not_is_not_told() {
        let none = "no ceilings and no floors";
        let wall = "into 1 wall or window, less what it gave to the air";
        assert_eq!(words(&[90.0]), [wall, none, none]);
        let none = "no walls and no windows";
        let given = |what: &str| format!("what {what} gave to the air, counted below 0");
        assert_eq!(words(&[35.0]), [none, "into 1 ceiling", &given("1 ceiling")]);
        assert_eq!(words(&[180.0; 2]), [none, &given("2 floors"), "into 2 floors"]);
    }
}
