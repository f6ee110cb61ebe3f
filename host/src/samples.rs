//! Small houses to try things with.
use crate::conditions::{AirChangesPerHour, Conditions, ElementHour, NO_CONTROL};
use crate::head::{Basis, BuildingElement, Head, Kind, Pane};

/// The element part of House P's hours: 20 °C and no sun.
pub fn element_hour_p() -> ElementHour {
    ElementHour {
        temp_ext: 20.0,
        i_sol_dir: 0.0,
        i_sol_dif: 0.0,
        f_sh_dir: 1.0,
        f_sh_dif: 1.0,
        open: 0,
    }
}

/// House P of docs/SPECIFICATION.md: one square metre of window, everything at 20 °C, and numbers that
/// make its demand 144 Wh for each degree.
pub fn house_p() -> Head {
    let window = BuildingElement {
        kind: Kind::Transparent(Pane { k_pli: [0.0, 3600.0], h_pli: 1.0, delta_r: vec![] }),
        area: 1.0,
        pitch: 90.0,
        h_ce: 1.0,
        h_re: 0.0,
        h_ri: 0.0,
        solar_absorption_coeff: 0.0,
        therm_rad_to_sky: 0.0,
        first_hour: element_hour_p(),
    };
    Head {
        temp_setpnt_basis: Basis::Air,
        start_up_limit: 10,
        useful_area: 36.0,
        volume: 100.0,
        tb_heat_trans_coeff: 43.0625,
        temp_ext_air_init: 20.0,
        temp_setpnt_init: 20.0,
        temp_setpnt_vent_init: NO_CONTROL,
        elements: vec![window],
    }
}

/// An hour of House P with these setpoints for heating and cooling.
pub fn hour_p(temp_setpnt_heat: f64, temp_setpnt_cool: f64) -> Conditions {
    Conditions {
        delta_t_h: 1.0,
        temp_ext_air: 20.0,
        gains_internal: 0.0,
        gains_solar: 0.0,
        frac_convective_heat: 1.0,
        frac_convective_cool: 1.0,
        temp_setpnt_heat,
        temp_setpnt_cool,
        temp_setpnt_cool_vent: NO_CONTROL,
        avg_air_supply_temp: 20.0,
        gains_heat_cool_convective: 0.0,
        gains_heat_cool_radiative: 0.0,
        ach: AirChangesPerHour::one_rate(0.0),
        elements: vec![element_hour_p()],
    }
}
