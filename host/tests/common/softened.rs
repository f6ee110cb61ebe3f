//! Houses and hours by chance with values such as houses have, so that hours of them are seldom refused.
use crate::generated::Chance;
use hem_zone::{AirChangesPerHour, Conditions, Head, Kind, NO_CONTROL};

fn soft_kind(kind: &mut Kind, chance: &mut Chance) {
    let (k_pli, h_pli) = match kind {
        Kind::Transparent(pane) => {
            pane.delta_r.iter_mut().for_each(|r| *r = chance.number(0.0, 0.5));
            (&mut pane.k_pli[..], std::slice::from_mut(&mut pane.h_pli))
        }
        Kind::Opaque(layers)
        | Kind::AdjacentConditionedSpace(layers)
        | Kind::AdjacentUnconditionedSpaceSimple(layers)
        | Kind::Ground(layers)
        | Kind::PartyWall(layers) => (&mut layers.k_pli[..], &mut layers.h_pli[..]),
    };
    k_pli.iter_mut().for_each(|k| *k = chance.number(0.0, 50_000.0));
    h_pli.iter_mut().for_each(|h| *h = chance.number(0.1, 30.0));
}

pub fn soft_head(head: &mut Head, chance: &mut Chance) {
    head.useful_area = chance.number(10.0, 200.0);
    head.volume = chance.number(25.0, 500.0);
    head.tb_heat_trans_coeff = chance.number(0.0, 20.0);
    for element in &mut head.elements {
        soft_kind(&mut element.kind, chance);
        element.area = chance.number(0.1, 60.0);
        element.h_ce = chance.number(0.1, 25.0);
        element.h_re = chance.number(0.0, 6.0);
        element.h_ri = chance.number(0.0, 6.0);
        element.therm_rad_to_sky = chance.number(-10.0, 80.0);
    }
}

pub fn soft_hour(hour: &mut Conditions, chance: &mut Chance) {
    hour.delta_t_h = chance.one_of(&[0.25, 0.5, 1.0, 24.0]);
    hour.temp_ext_air = chance.number(-10.0, 35.0);
    hour.gains_internal = chance.number(0.0, 1000.0);
    hour.gains_solar = chance.number(0.0, 2000.0);
    hour.temp_setpnt_heat = chance.number(16.0, 22.0);
    hour.temp_setpnt_cool = chance.one_of(&[22.0, 24.5, 28.0, NO_CONTROL]);
    hour.temp_setpnt_cool_vent = chance.one_of(&[23.0, NO_CONTROL]);
    hour.avg_air_supply_temp = chance.number(-5.0, 30.0);
    hour.gains_heat_cool_convective = chance.number(-50.0, 50.0);
    hour.gains_heat_cool_radiative = chance.number(-50.0, 50.0);
    hour.ach = match hour.ach {
        AirChangesPerHour::Cooling { .. } => {
            AirChangesPerHour::Cooling { ach_cooling: chance.number(0.0, 2.0) }
        }
        AirChangesPerHour::TargetAndWindowsOpen { .. } => AirChangesPerHour::TargetAndWindowsOpen {
            ach_target: chance.number(0.0, 1.0),
            ach_windows_open: chance.number(1.0, 6.0),
        },
    };
    for element in &mut hour.elements {
        element.temp_ext = chance.number(-10.0, 35.0);
        element.i_sol_dir = chance.number(0.0, 800.0);
        element.i_sol_dif = chance.number(0.0, 300.0);
    }
}
