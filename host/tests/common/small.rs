//! A small house and three hours of it, as text.
#![allow(dead_code)] // Each file of tests uses a part of this.
use hem_zone::text::{read_house, Faults, Plan};

/// A wall and a window with two treatments.
pub const HOUSE: &str = r#"temp_setpnt_basis = "air"
start_up_limit = 100
useful_area = 36
volume = 100
tb_heat_trans_coeff = 43.0625
temp_ext_air_init = 20
temp_setpnt_init = 20

[conditions]
delta_t_h = 1
f_sh_dir = 1
f_sh_dif = 1
pane.f_sh_dir = 0.5

[element.wall]
kind = "Opaque"
area = 10
pitch = 90
h_ce = 20
h_re = 4.14
h_ri = 5.13
solar_absorption_coeff = 0.6
therm_rad_to_sky = 22.8
k_pli = [1000, 2000, 3000, 4000, 5000]
h_pli = [1, 2, 3, 4]
first_hour = { temp_ext = 20, i_sol_dir = 0, i_sol_dif = 0, f_sh_dir = 1, f_sh_dif = 1 }

[element.pane]
kind = "Transparent"
area = 1
pitch = 90
h_ce = 1
h_re = 0
h_ri = 0
solar_absorption_coeff = 0
therm_rad_to_sky = 0
k_pli = [0, 3600]
h_pli = 1
delta_r = [0.1, 0.2]

[element.pane.first_hour]
temp_ext = 20
i_sol_dir = 0
i_sol_dif = 0
f_sh_dir = 1
f_sh_dif = 1
open = "all"
"#;

pub const HOURS: &str = "\
time,temp_ext_air,gains_internal,gains_solar,frac_convective_heat,frac_convective_cool,temp_setpnt_heat,temp_setpnt_cool,avg_air_supply_temp,rate,temp_ext,wall.temp_ext,i_sol_dir,i_sol_dif,open,hour
1 Jan,20,100,0,1,1,20,none,20,0.5,20,18,0,0,all,1
1 Jan,21,100,0,1,1,20,24,20,0.5,20,18,0,0,1,2
1 Jan,22,100,0,1,1,20,24,20,0.5,20,18,0,0,none,3
";

pub fn plan() -> Plan {
    read_house("h.toml", HOUSE, &mut Faults::new()).plan.unwrap()
}

/// Puts another text in the place of one that stands in it once.
#[track_caller]
pub fn edited(text: &str, from: &str, to: &str) -> String {
    assert_eq!(text.matches(from).count(), 1, "{from}");
    text.replace(from, to)
}
