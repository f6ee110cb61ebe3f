//! The places of heads and conditions in their bytes (docs/SPECIFICATION.md), to name the value in which two
//! of them differ.

/// A value: where it stands, how many bytes it has, and its name.
struct Place {
    at: usize,
    len: usize,
    name: String,
}

#[derive(Default)]
struct Walk {
    at: usize,
    /// What is said before each name.
    of: String,
    places: Vec<Place>,
}

impl Walk {
    fn put(&mut self, len: usize, name: &str) {
        self.places.push(Place { at: self.at, len, name: format!("{}{name}", self.of) });
        self.at += len;
    }

    fn floats(&mut self, names: &[&str]) {
        for name in names {
            self.put(8, name);
        }
    }

    fn row(&mut self, name: &str, count: usize) {
        for j in 0..count {
            self.put(8, &format!("{name}[{j}]"));
        }
    }

    fn element(&mut self, number: usize) {
        self.of = format!("element {number}: ");
    }

    fn element_hour(&mut self) {
        self.floats(&["temp_ext", "i_sol_dir", "i_sol_dif", "f_sh_dir", "f_sh_dif"]);
        self.put(1, "open");
    }
}

/// The places of a head that the engine accepted.
fn head_places(head: &[u8]) -> Vec<Place> {
    const TRANSPARENT: u8 = 4;
    let mut walk = Walk::default();
    walk.put(4, "its length");
    walk.put(1, "its version");
    walk.put(1, "temp_setpnt_basis");
    walk.put(1, "the element count");
    walk.put(2, "start_up_limit");
    walk.floats(&["useful_area", "volume", "tb_heat_trans_coeff"]);
    walk.floats(&["temp_ext_air_init", "temp_setpnt_init", "temp_setpnt_vent_init"]);
    for number in 1..=usize::from(head[6]) {
        let (kind, treatments) = (head[walk.at], usize::from(head[walk.at + 1]));
        let (nodes, gaps) = if kind == TRANSPARENT { (2, 1) } else { (5, 4) };
        walk.element(number);
        walk.put(1, "kind");
        walk.put(1, "the treatment count");
        walk.floats(&["area", "pitch", "h_ce", "h_re", "h_ri"]);
        walk.floats(&["solar_absorption_coeff", "therm_rad_to_sky"]);
        walk.row("k_pli", nodes);
        walk.row("h_pli", gaps);
        walk.row("delta_r", treatments);
        walk.element_hour();
    }
    walk.places
}

fn conditions_places(len: usize) -> Vec<Place> {
    let mut walk = Walk::default();
    walk.floats(&["delta_t_h", "temp_ext_air", "gains_internal", "gains_solar"]);
    walk.floats(&["frac_convective_heat", "frac_convective_cool"]);
    walk.floats(&["temp_setpnt_heat", "temp_setpnt_cool", "temp_setpnt_cool_vent"]);
    walk.floats(&["avg_air_supply_temp"]);
    walk.floats(&["gains_heat_cool_convective", "gains_heat_cool_radiative"]);
    walk.put(1, "the rate code");
    walk.floats(&["ach_cooling or ach_target", "ach_windows_open"]);
    for number in 1..=(len - walk.at) / 41 {
        walk.element(number);
        walk.element_hour();
    }
    walk.places
}

fn value(bytes: &[u8]) -> String {
    match <[u8; 8]>::try_from(bytes) {
        Ok(float) => f64::from_be_bytes(float).to_string(),
        Err(_) => bytes.iter().fold(0_u64, |n, byte| n << 8 | u64::from(*byte)).to_string(),
    }
}

fn first(places: Vec<Place>, ours: &[u8], theirs: &[u8]) -> Option<(String, String, String)> {
    places.into_iter().find_map(|place| {
        let range = place.at..place.at + place.len;
        let (a, b) = (ours.get(range.clone())?, theirs.get(range)?);
        (a != b).then(|| (place.name, value(a), value(b)))
    })
}

/// The first value in which a book's head differs from one that the engine accepted: its name, its
/// value in the book and in the other.
pub fn heads_differ(book: &[u8], head: &[u8]) -> Option<(String, String, String)> {
    first(head_places(head), book, head)
}

/// The first value in which the conditions of an hour differ.
pub fn conditions_differ(book: &[u8], given: &[u8]) -> Option<(String, String, String)> {
    first(conditions_places(given.len()), book, given)
}

/// How many nodes each element of an accepted head has.
pub fn nodes_by_element(head: &[u8]) -> Vec<usize> {
    let places = head_places(head);
    let nodes_of = |number: usize| {
        let name = format!("element {number}: k_pli[");
        places.iter().filter(|place| place.name.starts_with(&name)).count()
    };
    (1..=usize::from(head[6])).map(nodes_of).collect()
}

#[cfg(test)]
mod tests {
    use super::*;
    use hem_zone::samples::{hour_p, house_p};

    #[test]
    fn places_take_up_all_bytes() {
        let end = |places: Vec<Place>| places.last().map(|p| p.at + p.len);
        let head = house_p().to_bytes();
        assert_eq!(end(head_places(&head)), Some(head.len()));
        let hour = hour_p(20.0, 24.0).to_bytes();
        assert_eq!(end(conditions_places(hour.len())), Some(hour.len()));
        assert_eq!(nodes_by_element(&head), [2]);
    }

    #[test]
    fn the_value_that_differs_is_named() {
        let (mut other, named) =
            (house_p(), |a: &str, b: &str, c: &str| Some((a.into(), b.into(), c.into())));
        other.elements[0].h_ri = 2.5;
        let found = heads_differ(&other.to_bytes(), &house_p().to_bytes());
        assert_eq!(found, named("element 1: h_ri", "2.5", "0"));
        let found =
            conditions_differ(&hour_p(20.0, 25.0).to_bytes(), &hour_p(20.0, 24.0).to_bytes());
        assert_eq!(found, named("temp_setpnt_cool", "25", "24"));
        assert_eq!(heads_differ(&house_p().to_bytes(), &house_p().to_bytes()), None);
    }
}
