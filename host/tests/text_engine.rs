//! What a text may say is what the engine accepts: neither more nor less.
mod common;
#[path = "common/generated.rs"]
mod generated;

use generated::Chance;
use hem_zone::samples::{hour_p, house_p};
use hem_zone::text::*;
use hem_zone::{AirChangesPerHour, Conditions, ElementHour, Head, Kind, Zone};

/// The ends of all ranges, their neighbours on either side, and what is no number.
fn near_the_ends() -> Vec<f64> {
    let ends =
        [0.0, 0.001, 1.0, 100.0, 180.0, 273.15, 1e3, 2e3, 8760.0, 1e4, 1e5, 1e6, 1e7, 1.4e32];
    let beside = |end: f64| {
        let bits = end.to_bits();
        [end, f64::from_bits(bits + 1), f64::from_bits(bits.saturating_sub(1))]
    };
    let all = ends.into_iter().flat_map(beside).chain([f64::INFINITY, f64::NAN]);
    all.flat_map(|value| [value, -value]).collect()
}

const HEADS: &[fn(&mut Head, f64)] = &[
    |h, v| h.useful_area = v,
    |h, v| h.volume = v,
    |h, v| h.tb_heat_trans_coeff = v,
    |h, v| h.temp_ext_air_init = v,
    |h, v| h.temp_setpnt_init = v,
    |h, v| h.temp_setpnt_vent_init = v,
    |h, v| h.elements[0].area = v,
    |h, v| h.elements[0].pitch = v,
    |h, v| h.elements[0].h_ce = v,
    |h, v| h.elements[0].h_re = v,
    |h, v| h.elements[0].h_ri = v,
    |h, v| h.elements[0].solar_absorption_coeff = v,
    |h, v| h.elements[0].therm_rad_to_sky = v,
    |h, v| pane(h).k_pli[1] = v,
    |h, v| pane(h).h_pli = v,
    |h, v| pane(h).delta_r = vec![v],
    |h, v| h.elements[0].first_hour.temp_ext = v,
    |h, v| h.elements[0].first_hour.i_sol_dir = v,
    |h, v| h.elements[0].first_hour.i_sol_dif = v,
    |h, v| h.elements[0].first_hour.f_sh_dir = v,
    |h, v| h.elements[0].first_hour.f_sh_dif = v,
];

fn pane(head: &mut Head) -> &mut hem_zone::Pane {
    match &mut head.elements[0].kind {
        Kind::Transparent(pane) => pane,
        _ => unreachable!("House P has one window"),
    }
}

const HOURS: &[fn(&mut Conditions, f64)] = &[
    |h, v| h.delta_t_h = v,
    |h, v| h.temp_ext_air = v,
    |h, v| h.gains_internal = v,
    |h, v| h.gains_solar = v,
    |h, v| h.frac_convective_heat = v,
    |h, v| h.frac_convective_cool = v,
    |h, v| h.temp_setpnt_heat = v,
    |h, v| h.temp_setpnt_cool = v,
    |h, v| h.temp_setpnt_cool_vent = v,
    |h, v| h.avg_air_supply_temp = v,
    |h, v| h.gains_heat_cool_convective = v,
    |h, v| h.gains_heat_cool_radiative = v,
    |h, v| h.ach = AirChangesPerHour::Cooling { ach_cooling: v },
    |h, v| h.ach = AirChangesPerHour::one_rate(v),
    |h, v| h.ach = AirChangesPerHour::TargetAndWindowsOpen { ach_target: v, ach_windows_open: 1.0 },
    |h, v| h.ach = AirChangesPerHour::TargetAndWindowsOpen { ach_target: 1.0, ach_windows_open: v },
    |h, v| h.elements[0].temp_ext = v,
    |h, v| h.elements[0].i_sol_dir = v,
    |h, v| h.elements[0].i_sol_dif = v,
    |h, v| h.elements[0].f_sh_dir = v,
    |h, v| h.elements[0].f_sh_dif = v,
];

#[test]
fn ranges_of_a_house_are_the_engines() {
    for (place, set) in HEADS.iter().enumerate() {
        for value in near_the_ends() {
            let mut head = house_p();
            set(&mut head, value);
            let text = write_house(&head, &Plan::of_head(&head));
            let mut faults = Faults::new();
            let read = read_house("h.toml", &text, &mut faults).head.map(|head| head.to_bytes());
            let accepted = Zone::new(&head).ok().map(|_| head.to_bytes());
            assert_eq!(read, accepted, "value {place} is {value:?}: {faults}");
        }
    }
}

#[test]
fn ranges_of_hours_are_the_engines() {
    let (head, zone) = (house_p(), Zone::new(&house_p()).unwrap());
    let plan = Plan::of_head(&head);
    for (place, set) in HOURS.iter().enumerate() {
        for value in near_the_ends() {
            let mut hour = hour_p(20.0, 24.0);
            set(&mut hour, value);
            let text = write_hours(std::slice::from_ref(&hour), &plan, 1);
            let mut faults = Faults::new();
            let read = read_hours("h.csv", text.as_bytes(), Some(&plan), &mut faults);
            let accepted = Conditions::from_bytes(&zone, &hour.to_bytes()).is_ok();
            assert_eq!(read.is_some(), accepted, "value {place} is {value:?}: {faults}");
            let bytes = read.map(|hours| hours[0].to_bytes());
            assert_eq!(bytes, accepted.then(|| hour.to_bytes()));
        }
    }
}

/// A text with some of its letters, words or lines exchanged.
fn spoilt(chance: &mut Chance, text: &str) -> String {
    let mut text: Vec<char> = text.chars().collect();
    for _ in 0..1 + chance.below(3) {
        let place = chance.below(text.len() as u64) as usize;
        let (end, other) = (chance.below(12) as usize, chance.below(text.len() as u64) as usize);
        let end = (place + end).min(text.len());
        match chance.below(5) {
            0 => drop(text.drain(place..end)),
            1 => text[place] = chance.one_of(&['0', '9', '-', '.', ',', '"', '\n', '[', '=', 'é']),
            2 => text.insert(place, chance.one_of(&['1', 'e', '-', '\n', '#', '\'', ']', ' '])),
            3 => text.swap(place, other),
            _ => {
                let part: Vec<char> = text[place..end].to_vec();
                text.splice(other..other, part);
            }
        }
        if text.is_empty() {
            text.push('a');
        }
    }
    text.into_iter().collect()
}

/// Spoilt texts are told to be faulty, or make what the engine accepts.
#[test]
fn spoilt_texts_do_no_harm() {
    let mut chance = Chance(7);
    let (mut good, mut bad) = (0, 0);
    for _ in 0..60 {
        let head = chance.head();
        let hours = chance.hours(&head, 3);
        let plan = Plan::with_names(&head, chance.names(head.elements.len()));
        let (plan, csv) = compact(&hours, &plan);
        let toml = write_house(&head, &plan);
        for _ in 0..20 {
            let mut faults = Faults::new();
            let house = read_house("h.toml", &spoilt(&mut chance, &toml), &mut faults);
            assert_eq!(house.head.is_some(), faults.is_empty());
            house.head.iter().for_each(|head| drop(Zone::new(head).unwrap()));

            let zone = house.head.as_ref().unwrap_or(&head);
            let plan = if house.head.is_some() { house.plan.as_ref() } else { Some(&plan) };
            let mut faults = Faults::new();
            let text = spoilt(&mut chance, &csv);
            let read = read_hours("h.csv", text.as_bytes(), plan, &mut faults);
            assert_eq!(read.is_some(), faults.is_empty());
            match read {
                None => bad += 1,
                Some(hours) => {
                    good += 1;
                    let zone = Zone::new(zone).unwrap();
                    for hour in hours {
                        Conditions::from_bytes(&zone, &hour.to_bytes()).unwrap();
                    }
                }
            }
        }
    }
    assert!(good > 50 && bad > 50, "{good} good, {bad} bad");
}

#[test]
fn open_treatments_of_every_count() {
    for treatments in 0..=4 {
        let mut head = house_p();
        pane(&mut head).delta_r = vec![0.1; treatments];
        let (zone, plan) = (Zone::new(&head).unwrap(), Plan::of_head(&head));
        for open in 0..16 {
            let mut hour = hour_p(20.0, 24.0);
            hour.elements[0] = ElementHour { open, ..hour.elements[0] };
            let accepted = Conditions::from_bytes(&zone, &hour.to_bytes()).is_ok();
            let mut text = write_hours(std::slice::from_ref(&hour), &plan, 1);
            if treatments == 0 {
                // The column is left out where there is nothing to open: here it is written.
                let other = Plan::of_elements(1);
                text = write_hours(std::slice::from_ref(&hour), &other, 1);
            }
            let mut faults = Faults::new();
            let read = read_hours("h.csv", text.as_bytes(), Some(&plan), &mut faults);
            assert_eq!(read.is_some(), accepted, "{open} of {treatments}: {faults}");
        }
    }
}
