//! The houses and hours that are timed. They are those by which the original is timed, so that the
//! figures can be laid side by side.
use hem_zone::{
    AirChangesPerHour, Basis, BuildingElement, Conditions, ElementHour, Head, Kind, Layers,
    NO_CONTROL,
};
use std::f64::consts::TAU;

fn kind(place: usize) -> Kind {
    let layers = Layers {
        k_pli: [10000.0, 20000.0, 20000.0, 20000.0, 10000.0],
        h_pli: [12.0, 6.0, 6.0, 12.0],
    };
    match place % 6 {
        1 => Kind::PartyWall(layers),
        2 => Kind::Ground(layers),
        4 => Kind::AdjacentUnconditionedSpaceSimple(layers),
        _ => Kind::Opaque(layers),
    }
}

fn element_hour(temp_ext: f64, sun: f64) -> ElementHour {
    ElementHour {
        temp_ext,
        i_sol_dir: sun,
        i_sol_dif: 0.5 * sun,
        f_sh_dir: 0.8,
        f_sh_dif: 0.9,
        open: 0,
    }
}

fn element(place: usize) -> BuildingElement {
    BuildingElement {
        kind: kind(place),
        area: 10.0 + place as f64,
        pitch: [90.0, 90.0, 180.0, 30.0, 90.0, 0.0][place % 6],
        h_ce: 20.0,
        h_re: 4.14,
        h_ri: 5.13,
        solar_absorption_coeff: 0.6,
        therm_rad_to_sky: 20.0,
        first_hour: element_hour(5.0, 0.0),
    }
}

/// A house of so many five-node elements.
pub fn house(elements: usize) -> Head {
    Head {
        temp_setpnt_basis: Basis::Operative,
        start_up_limit: 10000,
        useful_area: 80.0,
        volume: 200.0,
        tb_heat_trans_coeff: 10.0,
        temp_ext_air_init: 5.0,
        temp_setpnt_init: 20.0,
        temp_setpnt_vent_init: NO_CONTROL,
        elements: (0..elements).map(element).collect(),
    }
}

/// An hour of the year, from 0. With one rate it is target and windows-open rate both; the original is timed with its
/// fixed rate then, which gives the same hour.
pub fn hour(hour: usize, elements: usize, windows: bool) -> Conditions {
    let of_day = (hour % 24) as f64;
    let season = (hour as f64 / 8760.0 * TAU).cos();
    let temp_ext = 12.0 - 10.0 * season + 4.0 * ((of_day - 14.0) / 24.0 * TAU).cos();
    let sun = (400.0 * ((of_day - 12.0) / 24.0 * TAU).cos()).max(0.0);
    Conditions {
        delta_t_h: 1.0,
        temp_ext_air: temp_ext,
        gains_internal: 300.0,
        gains_solar: 2.0 * sun,
        frac_convective_heat: 0.7,
        frac_convective_cool: 0.9,
        temp_setpnt_heat: 20.0,
        temp_setpnt_cool: 25.0,
        temp_setpnt_cool_vent: 22.0,
        avg_air_supply_temp: temp_ext,
        gains_heat_cool_convective: 0.0,
        gains_heat_cool_radiative: 0.0,
        ach: AirChangesPerHour::TargetAndWindowsOpen {
            ach_target: 0.5,
            ach_windows_open: if windows { 4.0 } else { 0.5 },
        },
        elements: vec![element_hour(temp_ext, sun); elements],
    }
}
