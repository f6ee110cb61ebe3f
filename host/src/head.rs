//! A zone by name, and the bytes of its head.
use crate::bytes::{count_byte, f64s_at, put_f64s};
use crate::conditions::ElementHour;
use crate::layout::{element_size, nodes_and_gaps, HEAD_COMMON, TRANSPARENT};
use crate::refusal::Refusal;
use crate::zone::Zone;

/// Which temperature the setpoints are held against.
#[derive(Clone, Copy, Debug, PartialEq)]
pub enum Basis {
    /// The air.
    Air,
    /// The mean of the air and the mean radiant temperature.
    Operative,
}

/// The five nodes of every kind of element but the transparent one, from the outer to the inner surface.
#[derive(Clone, Copy, Debug, PartialEq)]
pub struct Layers {
    /// Areal heat capacity of each node, J/(m².K).
    pub k_pli: [f64; 5],
    /// Conductance between neighbouring nodes, W/(m².K).
    pub h_pli: [f64; 4],
}

/// The two nodes of a transparent element, and its treatments (curtains, blinds, shutters).
#[derive(Clone, Debug, PartialEq)]
pub struct Pane {
    /// Areal heat capacity of each node, J/(m².K).
    pub k_pli: [f64; 2],
    /// Conductance between the two, W/(m².K).
    pub h_pli: f64,
    /// The resistance that each treatment adds while it is closed, m².K/W. At most four.
    pub delta_r: Vec<f64>,
}

/// The kinds of element, in the order of their numbers.
#[derive(Clone, Debug, PartialEq)]
pub enum Kind {
    /// A wall, roof or door to the outside.
    Opaque(Layers),
    /// Next to a space that is heated or cooled too.
    AdjacentConditionedSpace(Layers),
    /// Next to a space that is not, as a garage.
    AdjacentUnconditionedSpaceSimple(Layers),
    /// A floor on the ground.
    Ground(Layers),
    /// A window or glazed door.
    Transparent(Pane),
    /// A wall shared with a neighbour.
    PartyWall(Layers),
}

impl Kind {
    /// The number that stands for the kind, 0 to 5.
    pub fn number(&self) -> u8 {
        match self {
            Kind::Opaque(_) => 0,
            Kind::AdjacentConditionedSpace(_) => 1,
            Kind::AdjacentUnconditionedSpaceSimple(_) => 2,
            Kind::Ground(_) => 3,
            Kind::Transparent(_) => 4,
            Kind::PartyWall(_) => 5,
        }
    }

    /// The kind of a number and the values of its nodes, which are as many as the kind takes.
    pub(crate) fn of_parts(number: u8, k_pli: &[f64], h_pli: &[f64], delta_r: &[f64]) -> Self {
        if number == TRANSPARENT {
            let (k_pli, delta_r) = (array(k_pli), delta_r.to_vec());
            return Self::Transparent(Pane { k_pli, h_pli: h_pli[0], delta_r });
        }
        let layers = Layers { k_pli: array(k_pli), h_pli: array(h_pli) };
        match number {
            0 => Self::Opaque(layers),
            1 => Self::AdjacentConditionedSpace(layers),
            2 => Self::AdjacentUnconditionedSpaceSimple(layers),
            3 => Self::Ground(layers),
            _ => Self::PartyWall(layers),
        }
    }

    /// Heat capacities, conductances and treatments, in the order of the bytes.
    pub(crate) fn parts(&self) -> (&[f64], &[f64], &[f64]) {
        match self {
            Kind::Transparent(pane) => {
                (&pane.k_pli, std::slice::from_ref(&pane.h_pli), &pane.delta_r)
            }
            Kind::Opaque(layers)
            | Kind::AdjacentConditionedSpace(layers)
            | Kind::AdjacentUnconditionedSpaceSimple(layers)
            | Kind::Ground(layers)
            | Kind::PartyWall(layers) => (&layers.k_pli, &layers.h_pli, &[]),
        }
    }
}

/// The first values of a slice that has enough of them.
fn array<const N: usize>(values: &[f64]) -> [f64; N] {
    std::array::from_fn(|j| values[j])
}

/// One element of the zone's envelope.
#[derive(Clone, Debug, PartialEq)]
pub struct BuildingElement {
    /// Its kind, with its nodes.
    pub kind: Kind,
    /// Area, m².
    pub area: f64,
    /// Tilt from the horizontal, degrees: 0 faces up, 90 is a wall, 180 faces down.
    pub pitch: f64,
    /// External convective coefficient, W/(m².K).
    pub h_ce: f64,
    /// External radiative coefficient, W/(m².K).
    pub h_re: f64,
    /// Internal radiative coefficient, W/(m².K).
    pub h_ri: f64,
    /// Share of the sun that the outer surface absorbs.
    pub solar_absorption_coeff: f64,
    /// Radiation to the sky, W/m².
    pub therm_rad_to_sky: f64,
    /// Its part of the first hour, which start-up repeats.
    pub first_hour: ElementHour,
}

impl BuildingElement {
    /// The seven values before the nodes, in the order of the bytes.
    pub(crate) fn values(&self) -> [f64; 7] {
        [
            self.area,
            self.pitch,
            self.h_ce,
            self.h_re,
            self.h_ri,
            self.solar_absorption_coeff,
            self.therm_rad_to_sky,
        ]
    }

    pub(crate) fn of_values(kind: Kind, values: [f64; 7], first_hour: ElementHour) -> Self {
        let [area, pitch, h_ce, h_re, h_ri, solar_absorption_coeff, therm_rad_to_sky] = values;
        Self {
            kind,
            area,
            pitch,
            h_ce,
            h_re,
            h_ri,
            solar_absorption_coeff,
            therm_rad_to_sky,
            first_hour,
        }
    }

    fn put(&self, bytes: &mut Vec<u8>) {
        let (k_pli, h_pli, delta_r) = self.kind.parts();
        bytes.push(self.kind.number());
        bytes.push(count_byte(delta_r.len()));
        put_f64s(bytes, &self.values());
        put_f64s(bytes, k_pli);
        put_f64s(bytes, h_pli);
        put_f64s(bytes, delta_r);
        self.first_hour.put(bytes);
    }

    /// The element that stands at the beginning of bytes that the engine accepted.
    fn of_accepted(bytes: &[u8]) -> Self {
        let (number, treatments) = (bytes[0], bytes[1] as usize);
        let (nodes, gaps) = nodes_and_gaps(number);
        let floats = f64s_at(bytes, 2, 7 + nodes + gaps + treatments);
        let (values, parts) = floats.split_at(7);
        let (k_pli, parts) = parts.split_at(nodes);
        let (h_pli, delta_r) = parts.split_at(gaps);
        let hour = &bytes[element_size(number, treatments) - ElementHour::SIZE..];
        let kind = Kind::of_parts(number, k_pli, h_pli, delta_r);
        Self::of_values(kind, array(values), ElementHour::read(hour))
    }
}

/// All that stays the same of a zone, and what start-up begins from.
#[derive(Clone, Debug, PartialEq)]
pub struct Head {
    /// Which temperature the setpoints are held against.
    pub temp_setpnt_basis: Basis,
    /// How many passes start-up may use to settle, 1 to 10,000.
    pub start_up_limit: u16,
    /// Useful floor area, m².
    pub useful_area: f64,
    /// Volume, m³.
    pub volume: f64,
    /// Sum of the thermal bridges, W/K.
    pub tb_heat_trans_coeff: f64,
    /// External temperature of start-up, °C.
    pub temp_ext_air_init: f64,
    /// Set temperature of start-up, °C.
    pub temp_setpnt_init: f64,
    /// Ventilation setpoint of start-up, °C, or [`NO_CONTROL`](crate::NO_CONTROL).
    pub temp_setpnt_vent_init: f64,
    /// The elements, 1 to 24.
    pub elements: Vec<BuildingElement>,
}

impl Head {
    /// The six values after the start-up limit, in the order of the bytes.
    pub(crate) fn values(&self) -> [f64; 6] {
        [
            self.useful_area,
            self.volume,
            self.tb_heat_trans_coeff,
            self.temp_ext_air_init,
            self.temp_setpnt_init,
            self.temp_setpnt_vent_init,
        ]
    }

    pub(crate) fn of_values(
        temp_setpnt_basis: Basis,
        start_up_limit: u16,
        values: [f64; 6],
        elements: Vec<BuildingElement>,
    ) -> Self {
        let [useful_area, volume, tb_heat_trans_coeff, temp_ext_air_init, temp_setpnt_init, vent] =
            values;
        Self {
            temp_setpnt_basis,
            start_up_limit,
            useful_area,
            volume,
            tb_heat_trans_coeff,
            temp_ext_air_init,
            temp_setpnt_init,
            temp_setpnt_vent_init: vent,
            elements,
        }
    }

    /// The head of these bytes, if the engine accepts them. Bytes after the head's own length are not
    /// looked at.
    pub fn from_bytes(bytes: &[u8]) -> Result<Self, Refusal> {
        Zone::from_head(bytes).map(|zone| Self::of_accepted(zone.head()))
    }

    /// The head of bytes that the engine accepted.
    pub(crate) fn of_accepted(bytes: &[u8]) -> Self {
        let body = &bytes[4..];
        let basis = if body[1] == 0 { Basis::Air } else { Basis::Operative };
        let limit = u16::from_be_bytes([body[3], body[4]]);
        let mut rest = &body[HEAD_COMMON..];
        let elements = (0..body[2]).map(|_| {
            let (element, after) = rest.split_at(element_size(rest[0], rest[1] as usize));
            rest = after;
            BuildingElement::of_accepted(element)
        });
        let elements = elements.collect();
        Self::of_values(basis, limit, array(&f64s_at(body, 5, 6)), elements)
    }

    /// The bytes of the head, its 4-byte length first. Whether they are accepted is for
    /// [`Zone::from_head`](crate::Zone::from_head) to say.
    pub fn to_bytes(&self) -> Vec<u8> {
        let mut body = vec![1, self.temp_setpnt_basis as u8, count_byte(self.elements.len())];
        body.extend(self.start_up_limit.to_be_bytes());
        put_f64s(&mut body, &self.values());
        for element in &self.elements {
            element.put(&mut body);
        }
        let mut bytes = (body.len() as u32).to_be_bytes().to_vec();
        bytes.extend(body);
        bytes
    }
}
