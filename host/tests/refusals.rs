//! Refusals of heads, states and conditions: number, index and the sentence that says what is wrong. Those of
//! hours and books are in refusals_hours.rs.
#[path = "common/refused.rs"]
mod refused;

use hem_zone::*;
use refused::*;

#[test]
fn the_house_and_its_hour_are_accepted() {
    assert!(zone().hour_step(&twenty(), &hour().to_bytes(), ENTRY_VERSION_2).is_ok());
    assert!(Book::begin(&house().to_bytes()).is_ok());
}

#[test]
fn n01_head_ends_early() {
    is(Zone::from_head(&[]), 1, 0, "the head has 0 bytes and not even its 4-byte length");
    is(Zone::from_head(&[0, 0, 0]), 1, 0, "the head has 3 bytes and not even its 4-byte length");
    is(bytes_with(|b| b.truncate(100)), 1, 0, "the head ends early: 96 bytes of 534 are there");
}

#[test]
fn n02_length() {
    is(
        bytes_with(|b| b[3] = 1),
        2,
        0,
        "the head's length is 513, which is not what its elements take",
    );
    is(bytes_with(|b| b[2] = 255), 2, 0, "the head's length is 65302, outside 176 to 4,157");
    is(head_with(|h| h.elements.clear()), 2, 0, "the head's length is 53, outside 176 to 4,157");
}

#[test]
fn n03_version() {
    is(bytes_with(|b| b[4] = 2), 3, 0, "the head's version is 2, not 1");
}

#[test]
fn n04_counts_and_kinds() {
    is(bytes_with(|b| b[5] = 2), 4, 0, "the basis is 2, not 0 (air) or 1 (operative)");
    is(bytes_with(|b| b[6] = 25), 4, 0, "the element count is 25, not 1 to 24");
    is(bytes_with(|b| b[57] = 6), 4, 1, "element 1: kind is 6, not 0 to 5");
    is(bytes_with(|b| b[57 + 171 + 139] = 9), 4, 3, "element 3: kind is 9, not 0 to 5");
    is(bytes_with(|b| b[57 + 172] = 5), 4, 2, "element 2: treatment count is 5, not 0 to 4");
    is(
        bytes_with(|b| b[58] = 1),
        4,
        1,
        "element 1: treatment count is 1, but only a transparent element has treatments",
    );
}

#[test]
fn n05_head_values() {
    let limit = "start_up_limit is 0, out of its range 1 to 10,000";
    is(head_with(|h| h.start_up_limit = 0), 5, 0, limit);
    is(head_with(|h| h.volume = 0.0), 5, 0, "volume is 0, out of its range above 0 to 100,000");
    is(
        head_with(|h| h.temp_setpnt_vent_init = 2e32),
        5,
        0,
        "temp_setpnt_vent_init is 2e32, out of its range -273.15 to 1.4e32",
    );
    is(
        head_with(|h| h.elements[0].pitch = f64::NAN),
        5,
        1,
        "element 1: pitch is NaN, out of its range 0 to 180",
    );
    let mut layers = layers();
    layers.h_pli[1] = -1.0;
    is(
        head_with(|h| h.elements[2].kind = Kind::Ground(layers)),
        5,
        3,
        "element 3: h_pli[1] is -1, out of its range above 0 to 1,000,000",
    );
    is(
        head_with(|h| {
            let pane = Pane { k_pli: [0.0, 0.0], h_pli: 2.0, delta_r: vec![0.1, 1000.5] };
            h.elements[1].kind = Kind::Transparent(pane)
        }),
        5,
        2,
        "element 2: delta_r[1] is 1000.5, out of its range 0 to 1,000",
    );
    is(
        head_with(|h| h.elements[1].first_hour.open = 4),
        5,
        2,
        "element 2: open (with 2 treatments) is 4, out of its range 0 to 3",
    );
}

#[test]
fn n06_state() {
    let ask = |state: &State| demand_of(&zone(), state, &hour().to_bytes());
    is(ask(&State::new(&[20.0; 12])), 6, 0, "the state has 12 temperatures, the zone 13 nodes");
    is(ask(&State::new(&[20.0; 500])), 6, 0, "the state has 500 temperatures, the zone 13 nodes");
    let mut temps = [20.0; 13];
    temps[7] = f64::INFINITY;
    is(
        ask(&State::new(&temps)),
        6,
        0,
        "node 7 (from 0): its temperature is inf, beyond ±1,000,000 °C",
    );
    temps[7] = 1e6;
    assert_ne!(ask(&State::new(&temps)).map_err(|r| r.number()), Err(6));
}

#[test]
fn n07_size_of_the_conditions() {
    let sentence = "the conditions have 195 bytes, where a zone of 3 elements takes 236";
    is(demand_with(|c| c.elements.truncate(2)), 7, 0, sentence);
    let sentence = "the conditions have 0 bytes, where a zone of 3 elements takes 236";
    is(demand_of(&zone(), &twenty(), &[]), 7, 0, sentence);
}

#[test]
fn n08_form_of_the_conditions() {
    let with = |at: usize, byte| {
        let mut bytes = hour().to_bytes();
        bytes[at] = byte;
        bytes
    };
    let demand = |bytes: &[u8]| zone().space_heat_cool_demand(&twenty(), bytes);
    let why = |bytes: &[u8]| zone().why(&twenty(), bytes);
    is(demand(&with(96, 2)), 8, 0, "the rate code is 2, not 1 (target and open)");
    is(why(&with(96, 2)), 8, 0, "the rate code is 2, not 0 (fixed) or 1 (target and open)");
    // A fixed rate, by its code; of what is no rate the number is not told.
    let retired = |rate: &str| {
        format!("the fixed rate (rate code 0) is retired: the same hour has target and windows open both {rate}")
    };
    is(demand(&with(96, 0)), 8, 0, &retired("0"));
    let second = Conditions { ach: AirChangesPerHour::one_rate(0.5), ..hour() };
    let mut second = second.to_bytes();
    second[96] = 0;
    is(demand(&second), 8, 0, &retired("0.5"));
    is(why(&second), 8, 0, "a fixed rate has a second rate that is not all zero bits");
    let fixed = |ach_cooling| {
        Conditions { ach: AirChangesPerHour::Cooling { ach_cooling }, ..hour() }.to_bytes()
    };
    for (rate, told) in
        [(1000.0, "1,000"), (-0.0, "0"), (-1.0, "that rate"), (f64::NAN, "that rate")]
    {
        is(demand(&fixed(rate)), 8, 0, &retired(told));
    }
    is(why(&fixed(-1.0)), 9, 0, "ach_cooling is -1, out of its range 0 to 1,000");
    let sentence = "element 2: it has 2 treatments, but open is 4";
    is(demand_with(|c| c.elements[1].open = 4), 8, 0, sentence);
    let sentence = "element 3: it has no treatments, but open is 1";
    is(demand_with(|c| c.elements[2].open = 1), 8, 0, sentence);
}

#[test]
fn n09_values_of_the_conditions() {
    is(demand_with(|c| c.delta_t_h = 0.0), 9, 0, "delta_t_h is 0, out of its range 0.001 to 8,760");
    is(
        demand_with(|c| {
            c.ach =
                AirChangesPerHour::TargetAndWindowsOpen { ach_target: 0.5, ach_windows_open: -1.0 }
        }),
        9,
        0,
        "ach_windows_open is -1, out of its range 0 to 1,000",
    );
    is(
        demand_with(|c| c.elements[2].i_sol_dif = 2000.5),
        9,
        3,
        "element 3: i_sol_dif is 2000.5, out of its range 0 to 2,000",
    );
    let update = |gains, fraction, rate| {
        zone().update_temperatures(&twenty(), &hour().to_bytes(), gains, fraction, rate)
    };
    let sentence = "frac_convective is 1.5, out of its range 0 to 1";
    is(update(0.0, 1.5, 0.0), 9, 0, sentence);
    let sentence = "gains_heat_cool is 20,000,000, out of its range -10,000,000 to 10,000,000";
    is(update(2e7, 0.0, 0.0), 9, 0, sentence);
    is(update(0.0, 0.0, -1.0), 9, 0, "ach is -1, out of its range 0 to 1,000");
}

#[test]
fn n10_and_n11_setpoints() {
    is(
        demand_with(|c| (c.temp_setpnt_heat, c.temp_setpnt_cool) = (22.0, 21.5)),
        10,
        0,
        "the cooling setpoint 21.5 °C is below the heating setpoint 22 °C",
    );
    is(
        demand_with(|c| c.temp_setpnt_cool_vent = 17.0),
        11,
        0,
        "the ventilation setpoint 17 °C is below the heating setpoint 18 °C",
    );
    is(
        head_with(|h| h.temp_setpnt_vent_init = 19.0).unwrap().start_up(),
        11,
        0,
        "the first ventilation setpoint 19 °C is below the heating setpoint 20 °C",
    );
}
