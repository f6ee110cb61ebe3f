//! The values of heads and hours in the order of their bytes: name, range and unit.
use crate::ranges::*;

/// A value's name, its range, and its unit or what its numbers stand for.
#[derive(Clone, Copy, Debug)]
pub(crate) struct Named {
    pub(crate) name: &'static str,
    pub(crate) range: Range,
    #[cfg_attr(not(feature = "text"), allow(dead_code))]
    pub(crate) unit: &'static str,
}

const fn named(name: &'static str, range: Range, unit: &'static str) -> Named {
    Named { name, range, unit }
}

pub(crate) const START_UP_LIMIT: Named =
    named("start_up_limit", LIMIT, "passes that start-up may use, 1 to 10,000");

/// Of a head, after the start-up limit.
pub(crate) const HEAD: [Named; 6] = [
    named("useful_area", AREA, "m² of floor"),
    named("volume", AREA, "m³"),
    named("tb_heat_trans_coeff", COEFFICIENT, "W/K, sum of the thermal bridges"),
    named("temp_ext_air_init", TEMPERATURE, "°C, outside at start-up"),
    named("temp_setpnt_init", HEATING_SETPOINT, "°C, inside at start-up"),
    named(
        "temp_setpnt_vent_init",
        OTHER_SETPOINT,
        "°C, ventilation setpoint of start-up, or \"none\"",
    ),
];

/// Of an element, before its nodes.
pub(crate) const ELEMENT: [Named; 7] = [
    named("area", AREA, "m²"),
    named("pitch", PITCH, "degrees: 0 faces up, 90 is a wall, 180 faces down"),
    named("h_ce", COEFFICIENT, "W/(m².K), outside, convective"),
    named("h_re", COEFFICIENT, "W/(m².K), outside, radiative"),
    named("h_ri", COEFFICIENT, "W/(m².K), inside, radiative"),
    named("solar_absorption_coeff", FRACTION, "share of the sun that the outside absorbs"),
    named("therm_rad_to_sky", SKY, "W/m², radiation to the sky"),
];

pub(crate) const CAPACITY: Named =
    named("k_pli", K_PLI, "J/(m².K) of each node, from the outer to the inner");
pub(crate) const CONDUCTANCE: Named = named("h_pli", H_PLI, "W/(m².K) between the nodes");
pub(crate) const TREATMENT: Named =
    named("delta_r", DELTA_R, "m².K/W that each treatment adds while it is closed");

/// Of an hour, before its rates.
pub(crate) const HOUR: [Named; 12] = [
    named("delta_t_h", HOUR_LENGTH, "hours"),
    named("temp_ext_air", TEMPERATURE, "°C, outside"),
    named("gains_internal", GAINS, "W"),
    named("gains_solar", GAINS, "W, sun let in by the windows"),
    named("frac_convective_heat", FRACTION, "convective share of heating"),
    named("frac_convective_cool", FRACTION, "convective share of cooling"),
    named("temp_setpnt_heat", HEATING_SETPOINT, "°C"),
    named("temp_setpnt_cool", OTHER_SETPOINT, "°C, or \"none\""),
    named("temp_setpnt_cool_vent", OTHER_SETPOINT, "°C, above it windows are opened, or \"none\""),
    named("avg_air_supply_temp", TEMPERATURE, "°C"),
    named("gains_heat_cool_convective", GAINS, "W, of heating or cooling that is on in any case"),
    named("gains_heat_cool_radiative", GAINS, "W, likewise"),
];

/// The rates of an hour as its bytes have them: the fixed one, or the two others.
pub(crate) const RATES: [Named; 3] = [
    named("ach_cooling", RATE, "air changes per hour, fixed, as only hours of older books have it"),
    named("ach_target", RATE, "air changes per hour that ventilation requires"),
    named("ach_windows_open", RATE, "air changes per hour with all windows open"),
];

/// The rates of an hour as a text has them: one for both, or the two, or the fixed one.
#[cfg(feature = "text")]
pub(crate) const TEXT_RATES: [Named; 4] = [
    named("rate", RATE, "air changes per hour, the same with windows open and closed"),
    RATES[1],
    RATES[2],
    RATES[0],
];

/// Of an hour, for each element, before its open treatments.
pub(crate) const ELEMENT_HOUR: [Named; 5] = [
    named("temp_ext", TEMPERATURE, "°C, on the outer side"),
    named("i_sol_dir", IRRADIANCE, "W/m², direct"),
    named("i_sol_dif", IRRADIANCE, "W/m², diffuse"),
    named("f_sh_dir", FRACTION, "shading of the direct part, 1 is unshaded"),
    named("f_sh_dif", FRACTION, "shading of the diffuse part"),
];
