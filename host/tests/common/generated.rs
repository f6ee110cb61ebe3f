//! Houses and hours by chance, from a fixed seed.
#![allow(dead_code)] // Each file of tests uses a part of this.
use hem_zone::*;

/// A sequence of numbers that look like chance (SplitMix64), the same on every run.
pub struct Chance(pub u64);

impl Chance {
    pub fn next(&mut self) -> u64 {
        self.0 = self.0.wrapping_add(0x9e37_79b9_7f4a_7c15);
        let mut z = self.0;
        z = (z ^ (z >> 30)).wrapping_mul(0xbf58_476d_1ce4_e5b9);
        z = (z ^ (z >> 27)).wrapping_mul(0x94d0_49bb_1331_11eb);
        z ^ (z >> 31)
    }

    pub fn below(&mut self, end: u64) -> u64 {
        self.next() % end
    }

    pub fn one_of<T: Copy>(&mut self, all: &[T]) -> T {
        all[self.below(all.len() as u64) as usize]
    }

    /// A number of a range, `low` itself included or not: plain decimals, all bits by chance, the ends,
    /// zeros of both signs, and numbers next to nothing.
    pub fn number(&mut self, low: f64, high: f64) -> f64 {
        let fits = |value: f64| (low..=high).contains(&value).then_some(value);
        let share = (self.next() >> 11) as f64 / (1_u64 << 53) as f64;
        let between = low + share * (high.min(1e6) - low);
        let value = match self.below(8) {
            0 | 1 => fits((between * 100.0).round() / 100.0),
            2 => fits(between.round()),
            3 => fits(f64::from_bits(self.next())),
            4 => fits(self.one_of(&[0.0, -0.0, 1.0, low, high])),
            5 => fits(self.one_of(&[5e-324, -5e-324, f64::MIN_POSITIVE, 1e-7, 1e-5, 0.1 + 0.2])),
            _ => fits(between),
        };
        value.unwrap_or(between)
    }

    /// As `number`, above 0.
    pub fn above_zero(&mut self, high: f64) -> f64 {
        self.number(5e-324, high)
    }

    fn numbers<const N: usize>(&mut self, low: f64, high: f64) -> [f64; N] {
        std::array::from_fn(|_| self.number(low, high))
    }

    fn layers(&mut self) -> Layers {
        Layers {
            k_pli: self.numbers(0.0, 1e7),
            h_pli: std::array::from_fn(|_| self.above_zero(1e6)),
        }
    }

    fn pane(&mut self) -> Pane {
        let treatments = self.below(5);
        Pane {
            k_pli: self.numbers(0.0, 1e7),
            h_pli: self.above_zero(1e6),
            delta_r: (0..treatments).map(|_| self.number(0.0, 1000.0)).collect(),
        }
    }

    fn kind(&mut self) -> Kind {
        match self.below(7) {
            0 => Kind::Opaque(self.layers()),
            1 => Kind::AdjacentConditionedSpace(self.layers()),
            2 => Kind::AdjacentUnconditionedSpaceSimple(self.layers()),
            3 => Kind::Ground(self.layers()),
            4 => Kind::PartyWall(self.layers()),
            _ => Kind::Transparent(self.pane()),
        }
    }

    fn element_hour(&mut self, kind: &Kind) -> ElementHour {
        let treatments = match kind {
            Kind::Transparent(pane) => pane.delta_r.len(),
            _ => 0,
        };
        ElementHour {
            temp_ext: self.number(-100.0, 100.0),
            i_sol_dir: self.number(0.0, 2000.0),
            i_sol_dif: self.number(0.0, 2000.0),
            f_sh_dir: self.number(0.0, 1.0),
            f_sh_dif: self.number(0.0, 1.0),
            open: self.below(1 << treatments) as u8,
        }
    }

    fn element(&mut self) -> BuildingElement {
        let kind = self.kind();
        let first_hour = self.element_hour(&kind);
        BuildingElement {
            kind,
            area: self.above_zero(1e5),
            pitch: self.number(0.0, 180.0),
            h_ce: self.number(0.0, 1e6),
            h_re: self.number(0.0, 1e6),
            h_ri: self.number(0.0, 1e6),
            solar_absorption_coeff: self.number(0.0, 1.0),
            therm_rad_to_sky: self.number(-1e4, 1e4),
            first_hour,
        }
    }

    /// A head that the engine accepts.
    pub fn head(&mut self) -> Head {
        let most = self.one_of(&[5, 5, 5, 24]);
        let elements = 1 + self.below(most);
        Head {
            temp_setpnt_basis: self.one_of(&[Basis::Air, Basis::Operative]),
            start_up_limit: 1 + self.below(10_000) as u16,
            useful_area: self.above_zero(1e5),
            volume: self.above_zero(1e5),
            tb_heat_trans_coeff: self.number(0.0, 1e6),
            temp_ext_air_init: self.number(-100.0, 100.0),
            temp_setpnt_init: self.number(-273.15, 100.0),
            temp_setpnt_vent_init: self.setpoint(-273.15),
            elements: (0..elements).map(|_| self.element()).collect(),
        }
    }

    /// A setpoint at or above another, sometimes none.
    fn setpoint(&mut self, least: f64) -> f64 {
        match self.below(3) {
            0 => NO_CONTROL,
            _ => self.number(least, NO_CONTROL),
        }
    }

    /// Conditions for a head that books hold and `why` takes: half of them have a fixed rate, which the other calls
    /// refuse.
    pub fn hour(&mut self, head: &Head) -> Conditions {
        let temp_setpnt_heat = self.number(-273.15, 100.0);
        let ach = match self.below(2) {
            0 => AirChangesPerHour::Cooling { ach_cooling: self.number(0.0, 1000.0) },
            _ => AirChangesPerHour::TargetAndWindowsOpen {
                ach_target: self.number(0.0, 1000.0),
                ach_windows_open: self.number(0.0, 1000.0),
            },
        };
        Conditions {
            delta_t_h: self.number(0.001, 8760.0),
            temp_ext_air: self.number(-100.0, 100.0),
            gains_internal: self.number(-1e7, 1e7),
            gains_solar: self.number(-1e7, 1e7),
            frac_convective_heat: self.number(0.0, 1.0),
            frac_convective_cool: self.number(0.0, 1.0),
            temp_setpnt_heat,
            temp_setpnt_cool: self.setpoint(temp_setpnt_heat),
            temp_setpnt_cool_vent: self.setpoint(temp_setpnt_heat),
            avg_air_supply_temp: self.number(-100.0, 100.0),
            gains_heat_cool_convective: self.number(-1e7, 1e7),
            gains_heat_cool_radiative: self.number(-1e7, 1e7),
            ach,
            elements: head.elements.iter().map(|e| self.element_hour(&e.kind)).collect(),
        }
    }

    /// Some hours, in which values are often those of the hour before or of another element.
    pub fn hours(&mut self, head: &Head, count: usize) -> Vec<Conditions> {
        let mut hours = vec![self.hour(head)];
        while hours.len() < count {
            let (mut next, other) = (hours[hours.len() - 1].clone(), self.hour(head));
            if self.below(2) == 0 {
                next.temp_ext_air = other.temp_ext_air;
                next.gains_internal = other.gains_internal;
            }
            if self.below(3) == 0 {
                next.ach = other.ach;
            }
            let (first, changed) = (next.elements[0], self.below(head.elements.len() as u64));
            match self.below(4) {
                0 => next.elements[changed as usize] = other.elements[changed as usize],
                1 => next.elements.iter_mut().for_each(|e| e.temp_ext = first.temp_ext),
                2 => next = other,
                _ => {}
            }
            hours.push(next);
        }
        hours
    }

    /// Names of elements, no two the same, some of them awkward.
    pub fn names(&mut self, count: usize) -> Vec<String> {
        const SOME: [&str; 10] = [
            "wall",
            "Süd Fenster",
            "a.b",
            "roof, left",
            "say \"so\"",
            "temp_ext",
            "back\\slash",
            "# 1",
            "wall = 2",
            "'",
        ];
        (0..count).map(|number| format!("{}{number}", self.one_of(&SOME))).collect()
    }
}
