//! The rows of House P in docs/SPECIFICATION.md, through the wrapper.
use hem_zone::samples::{hour_p, house_p};
use hem_zone::{Kind, State, Zone, ENTRY_VERSION_2};

fn zone() -> Zone {
    Zone::new(&house_p()).unwrap()
}

fn twenty() -> State {
    State::new(&[20.0; 3])
}

#[test]
fn sizes() {
    assert_eq!(house_p().to_bytes().len(), 180);
    assert_eq!(zone().head().len(), 180);
    let lengths = [0, 1, 2, 3, 4].map(|version| zone().layout().entry_len(version));
    assert_eq!(lengths, [None, Some(216), Some(216), Some(232), None]);
    assert_eq!((zone().layout().nodes(), zone().layout().elements()), (3, 1));
}

#[test]
fn start_up_is_twenty_everywhere() {
    assert_eq!(zone().start_up().unwrap(), twenty());
    assert_eq!(zone().temp_operative(&twenty()), Ok(20.0));
    // The air at 30, the one inner surface at 10.
    assert_eq!(zone().temp_operative(&State::new(&[50.0, 10.0, 30.0])), Ok(20.0));
}

#[test]
fn free_temperatures() {
    let hour = hour_p(20.0, 24.0).to_bytes();
    let (after, balance) = zone().update_temperatures(&twenty(), &hour, 0.0, 0.0, 0.0).unwrap();
    assert_eq!(after, twenty());
    assert_eq!(balance.air_node.named().iter().map(|v| v.1.abs()).sum::<f64>(), 0.0);
}

#[test]
fn demand_by_setpoints() {
    let rows = [(20.0, 24.0, 0.0, 0.0), (21.0, 24.0, 0.144, 0.0), (15.0, 19.0, 0.0, -0.144)];
    for (heat, cool, heating, cooling) in rows {
        let hour = hour_p(heat, cool).to_bytes();
        let demand = zone().space_heat_cool_demand(&twenty(), &hour).unwrap();
        assert_eq!((demand.space_heat_demand, demand.space_cool_demand), (heating, cooling));
        assert_eq!((demand.ach_cooling, demand.ach_to_trigger_heating), (0.0, None));
    }
    let refusal = zone().space_heat_cool_demand(&twenty(), &hour_p(22.0, 21.0).to_bytes());
    assert_eq!(refusal.unwrap_err().number(), 10);
}

#[test]
fn no_solution_without_capacity_and_loss() {
    let mut head = house_p();
    let Kind::Transparent(pane) = &mut head.elements[0].kind else { unreachable!() };
    pane.k_pli = [0.0, 0.0];
    head.elements[0].h_ce = 0.0;
    head.tb_heat_trans_coeff = 0.0;
    head.useful_area = 1e-20;
    let zone = Zone::new(&head).unwrap();
    let refusal = zone.space_heat_cool_demand(&twenty(), &hour_p(20.0, 24.0).to_bytes());
    assert_eq!(refusal.unwrap_err().number(), 12);
}

#[test]
fn an_hour_ends_at_its_setpoint() {
    let (after, demand, balance) =
        zone().hour_step(&twenty(), &hour_p(21.0, 24.0).to_bytes(), ENTRY_VERSION_2).unwrap();
    assert_eq!(demand.space_heat_demand, 0.144);
    assert_eq!(after.temp_internal_air(), 21.0);
    assert_eq!(balance.air_node.heating_or_cooling_system_gains, 144.0);
    // The window stands upright: what the air gives to it flows horizontally.
    let (heat, inside) = (2.5 * (21.0 - after.temps()[1]), balance.internal_boundary);
    assert_eq!(
        (inside.fabric_int_air_convective, inside.fabric_int_air_convective_horizontal),
        (heat, heat)
    );
    let others =
        [inside.fabric_int_air_convective_upwards, inside.fabric_int_air_convective_downwards];
    assert_eq!(others.map(f64::to_bits), [0; 2]);
}
