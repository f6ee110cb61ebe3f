//! The sample: a small terrace house and what its hours bring.
use crate::sample_weather::Weather;
use hem_zone::{
    AirChangesPerHour, Basis, BuildingElement, Conditions, ElementHour, Head, Kind, Layers, Pane,
};

/// What lies on the outer side of an element.
#[derive(Clone, Copy)]
enum Outside {
    /// The weather, by the azimuth that the element faces (0 south, 180 north).
    Weather(f64),
    Ground,
    /// A home that is kept as warm as this one, so that no heat passes.
    AlikeHome,
    /// A home that may be cooler.
    Home,
    /// The covered passage beside the house.
    Passage,
}

/// An element of the house.
struct Part {
    name: &'static str,
    kind: fn(&Part) -> Kind,
    /// Thermal resistance from surface to surface, m².K/W.
    resistance: f64,
    /// Areal heat capacity, J/(m².K).
    capacity: f64,
    area: f64,
    pitch: f64,
    outside: Outside,
    /// Curtain first, then shutter; windows only.
    delta_r: &'static [f64],
}

/// Five nodes: a sixth of the resistance at either end, a third between the inside nodes; an eighth of
/// the capacity at either surface, a quarter at each inside node.
fn layers(part: &Part) -> Layers {
    let (end, middle) = (6.0 / part.resistance, 3.0 / part.resistance);
    let (surface, inside) = (part.capacity / 8.0, part.capacity / 4.0);
    Layers { k_pli: [surface, inside, inside, inside, surface], h_pli: [end, middle, middle, end] }
}

fn pane(part: &Part) -> Pane {
    Pane { k_pli: [0.0, 0.0], h_pli: 1.0 / part.resistance, delta_r: part.delta_r.to_vec() }
}

const PLAIN: Part = Part {
    name: "",
    kind: |p| Kind::Opaque(layers(p)),
    resistance: 3.2,
    capacity: 140_000.0,
    area: 1.0,
    pitch: 90.0,
    outside: Outside::Weather(0.0),
    delta_r: &[],
};

const WINDOW: Part =
    Part { kind: |p| Kind::Transparent(pane(p)), resistance: 0.55, capacity: 0.0, ..PLAIN };

/// A house of 4.5 m by 9 m on two floors, its front to the south.
const HOUSE: [Part; 9] = [
    Part { name: "front_wall", area: 15.0, ..PLAIN },
    Part { name: "back_wall", area: 17.5, outside: Outside::Weather(180.0), ..PLAIN },
    Part { name: "roof", area: 44.0, pitch: 35.0, resistance: 5.6, capacity: 40_000.0, ..PLAIN },
    Part {
        name: "ground_floor",
        kind: |p| Kind::Ground(layers(p)),
        area: 40.5,
        pitch: 180.0,
        resistance: 3.0,
        capacity: 120_000.0,
        outside: Outside::Ground,
        ..PLAIN
    },
    // to the home on the left, where heat does not pass, and on the right, where some does
    Part {
        name: "left_wall",
        kind: |p| Kind::AdjacentConditionedSpace(layers(p)),
        area: 45.0,
        resistance: 0.6,
        capacity: 160_000.0,
        outside: Outside::AlikeHome,
        ..PLAIN
    },
    Part {
        name: "right_wall",
        kind: |p| Kind::PartyWall(layers(p)),
        area: 37.0,
        resistance: 0.9,
        capacity: 160_000.0,
        outside: Outside::Home,
        ..PLAIN
    },
    Part {
        name: "passage_wall",
        kind: |p| Kind::AdjacentUnconditionedSpaceSimple(layers(p)),
        area: 8.0,
        resistance: 2.0,
        outside: Outside::Passage,
        ..PLAIN
    },
    // with curtain and shutter, with curtain
    Part { name: "front_window", area: 8.5, delta_r: &[0.14, 0.22], ..WINDOW },
    Part {
        name: "back_window",
        area: 5.0,
        delta_r: &[0.14],
        outside: Outside::Weather(180.0),
        ..WINDOW
    },
];

const USEFUL_AREA: f64 = 78.0;
const VOLUME: f64 = 195.0;
const SHADING_DIRECT: f64 = 0.85;
const SHADING_DIFFUSE: f64 = 0.92;
/// Share of the sun that a window lets in: glass, then frame; less behind a shutter.
const TRANSMITTED: f64 = 0.63 * 0.75;
const BEHIND_SHUTTER: f64 = 0.35;

impl Part {
    fn is_window(&self) -> bool {
        matches!((self.kind)(self), Kind::Transparent(_))
    }

    /// External coefficients, absorbed share of the sun and radiation to the sky.
    fn surface(&self) -> (f64, f64, f64, f64) {
        match self.outside {
            Outside::Weather(_) if self.is_window() => (20.0, 4.14, 0.0, 22.8),
            Outside::Weather(_) if self.pitch < 60.0 => (20.0, 4.14, 0.6, 41.4),
            Outside::Weather(_) => (20.0, 4.14, 0.6, 22.8),
            Outside::Ground => (2.0, 0.0, 0.0, 0.0),
            Outside::AlikeHome => (0.0, 0.0, 0.0, 0.0),
            Outside::Home => (1.0, 0.0, 0.0, 0.0),
            Outside::Passage => (3.3, 0.0, 0.0, 0.0),
        }
    }

    fn element(&self) -> BuildingElement {
        let (h_ce, h_re, solar_absorption_coeff, therm_rad_to_sky) = self.surface();
        BuildingElement {
            kind: (self.kind)(self),
            area: self.area,
            pitch: self.pitch,
            h_ce,
            h_re,
            h_ri: 5.13,
            solar_absorption_coeff,
            therm_rad_to_sky,
            first_hour: self.hour(&Hour::at(0)),
        }
    }

    fn hour(&self, hour: &Hour) -> ElementHour {
        let outdoors = hour.weather.temp_ext();
        let (temp_ext, sun) = match self.outside {
            Outside::Weather(azimuth) => {
                (outdoors, Some(hour.weather.irradiance(self.pitch, azimuth)))
            }
            Outside::Ground => (hour.weather.temp_ground(), None),
            Outside::AlikeHome | Outside::Home => (18.5, None),
            Outside::Passage => (0.6 * outdoors + 0.4 * 18.0, None),
        };
        ElementHour {
            temp_ext,
            i_sol_dir: sun.map_or(0.0, |s| s.direct),
            i_sol_dif: sun.map_or(0.0, |s| s.diffuse),
            f_sh_dir: SHADING_DIRECT,
            f_sh_dif: SHADING_DIFFUSE,
            open: hour.open_treatments(self.delta_r.len()),
        }
    }

    /// Sun let in through the element, W.
    fn transmitted(&self, hour: &Hour) -> f64 {
        if !self.is_window() {
            return 0.0;
        }
        let part = self.hour(hour);
        let shuttered = self.delta_r.len() > 1 && hour.shutter_closed();
        let share = TRANSMITTED * if shuttered { BEHIND_SHUTTER } else { 1.0 };
        let sun = part.i_sol_dir * part.f_sh_dir + part.i_sol_dif * part.f_sh_dif;
        self.area * share * sun
    }
}

/// An hour of the sample year: its weather and what the household does.
struct Hour {
    weather: Weather,
    of_day: usize,
    weekend: bool,
}

impl Hour {
    fn at(hour: usize) -> Self {
        Self { weather: Weather::at(hour), of_day: hour % 24, weekend: (hour / 24) % 7 >= 5 }
    }

    /// Shutters are closed against the sun of warm days.
    fn shutter_closed(&self) -> bool {
        self.weather.is_day() && self.weather.temp_ext() > 25.0
    }

    /// Curtains (the first bit) are open by day, shutters (the second) unless closed.
    fn open_treatments(&self, treatments: usize) -> u8 {
        let curtain = self.weather.is_day() as u8;
        let shutter = !self.shutter_closed() as u8;
        (curtain | shutter << 1) & ((1 << treatments) - 1)
    }

    fn awake(&self) -> bool {
        (7..23).contains(&self.of_day)
    }

    fn at_home(&self) -> bool {
        self.awake() && (self.weekend || !(9..16).contains(&self.of_day))
    }

    fn gains_internal(&self) -> f64 {
        match self.of_day {
            _ if !self.awake() => 210.0,
            _ if !self.at_home() => 120.0,
            7 | 8 => 480.0,
            17..=20 => 620.0,
            _ => 390.0,
        }
    }

    /// 20 °C while somebody is up and at home, 18 °C by day, 16 °C in the night.
    fn temp_setpnt_heat(&self) -> f64 {
        match (self.at_home(), self.awake()) {
            (true, _) => 20.0,
            (_, true) => 18.0,
            _ => 16.0,
        }
    }

    /// Windows may be opened by day; in the night there is one rate.
    fn ach(&self) -> AirChangesPerHour {
        if self.awake() {
            AirChangesPerHour::TargetAndWindowsOpen { ach_target: 0.5, ach_windows_open: 3.0 }
        } else {
            AirChangesPerHour::one_rate(0.45)
        }
    }

    /// A towel rail that is on in the morning, W: to the air, and by radiation.
    fn towel_rail(&self) -> (f64, f64) {
        match self.of_day {
            6 | 7 => (60.0, 40.0),
            _ => (0.0, 0.0),
        }
    }

    fn conditions(&self) -> Conditions {
        let temp_ext_air = self.weather.temp_ext();
        let (gains_heat_cool_convective, gains_heat_cool_radiative) = self.towel_rail();
        Conditions {
            delta_t_h: 1.0,
            temp_ext_air,
            gains_internal: self.gains_internal(),
            gains_solar: HOUSE.iter().map(|part| part.transmitted(self)).sum::<f64>().round(),
            frac_convective_heat: 0.7,
            frac_convective_cool: 0.95,
            temp_setpnt_heat: self.temp_setpnt_heat(),
            temp_setpnt_cool: 25.0,
            temp_setpnt_cool_vent: 22.5,
            avg_air_supply_temp: temp_ext_air,
            gains_heat_cool_convective,
            gains_heat_cool_radiative,
            ach: self.ach(),
            elements: HOUSE.iter().map(|part| part.hour(self)).collect(),
        }
    }
}

/// The terrace house.
pub fn house() -> Head {
    let first = Hour::at(0);
    Head {
        temp_setpnt_basis: Basis::Operative,
        start_up_limit: 1000,
        useful_area: USEFUL_AREA,
        volume: VOLUME,
        tb_heat_trans_coeff: 7.5,
        temp_ext_air_init: first.weather.temp_ext(),
        temp_setpnt_init: 18.0,
        temp_setpnt_vent_init: 22.5,
        elements: HOUSE.iter().map(Part::element).collect(),
    }
}

/// The names of its elements.
pub fn names() -> Vec<String> {
    HOUSE.iter().map(|part| part.name.to_string()).collect()
}

/// The conditions of an hour of the year, from 0.
pub fn conditions(hour: usize) -> Conditions {
    Hour::at(hour).conditions()
}
