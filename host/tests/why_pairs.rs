//! Every reason of a rate beside every load, in small houses: hours of House P that can be followed by hand, and
//! those in which a load stands beside a reason by closeness or by rounding alone.
#[path = "common/why.rs"]
mod why;

use hem_zone::samples::{hour_p, house_p};
use hem_zone::RateReason::*;
use hem_zone::{
    AirChangesPerHour, Basis, Conditions, Head, Load, RateReason, State, Why, Zone, NO_CONTROL,
};
use why::{look, Asked, Met};
use Load::{Cooling, Heating, Neither};

fn windows(ach_target: f64, ach_windows_open: f64) -> AirChangesPerHour {
    AirChangesPerHour::TargetAndWindowsOpen { ach_target, ach_windows_open }
}

/// What an hour is told by: the setpoints of heating, cooling and ventilation, the supplied air, and the rates.
#[derive(Clone, Copy)]
struct Hour {
    heat: f64,
    cool: f64,
    vent: f64,
    supply: f64,
    ach: AirChangesPerHour,
}

impl Hour {
    fn conditions(self) -> Conditions {
        Conditions {
            temp_setpnt_cool_vent: self.vent,
            avg_air_supply_temp: self.supply,
            ach: self.ach,
            ..hour_p(self.heat, self.cool)
        }
    }
}

/// A house and the temperature of all its nodes before an hour.
struct House {
    head: Head,
    temp: f64,
}

impl House {
    fn new(head: Head, temp: f64) -> Self {
        Self { head, temp }
    }

    /// The engine must give this reason and this load, and so must the answer that is worked out here.
    #[track_caller]
    fn says(&self, hour: Conditions, reason: RateReason, load: Load) {
        let zone = Zone::new(&self.head).unwrap();
        let before = State::new(&vec![self.temp; zone.layout().nodes()]);
        assert_eq!(zone.why(&before, &hour), Ok(Why { reason, load }));
        let asked = Asked { head: &self.head, zone: &zone, before: &before, hour };
        look(&asked, &mut Met::default());
    }
}

// ---- House P ----
// Its nodes at 26 °C and 20 °C outside: without ventilation it ends at 24.19 °C, with ten changes of air of 20 °C
// at 21.26 °C. Between these a rate can be found that brings it to any temperature.

const CLOSED: Hour = Hour { heat: 18.0, cool: 24.0, vent: 22.0, supply: 20.0, ach: WINDOWS };
const WINDOWS: AirChangesPerHour =
    AirChangesPerHour::TargetAndWindowsOpen { ach_target: 0.0, ach_windows_open: 10.0 };

#[test]
fn without_a_choice_of_rates() {
    let house = House::new(house_p(), 26.0);
    let fixed = |ach_cooling| AirChangesPerHour::Cooling { ach_cooling };
    let (zeros, equal) = ([windows(0.0, -0.0), windows(-0.0, 0.0)], windows(0.0, 0.0));
    for ach in [fixed(0.0), fixed(-0.0), equal, zeros[0], zeros[1]] {
        let hour = Hour { ach, ..CLOSED };
        house.says(hour.conditions(), NoChoice, Cooling);
        house.says(Hour { cool: 25.0, ..hour }.conditions(), NoChoice, Neither);
        let cold = Hour { heat: 25.0, cool: 26.0, vent: NO_CONTROL, ..hour };
        house.says(cold.conditions(), NoChoice, Heating);
    }
    // Two rates that differ by as little as can be are a choice.
    house.says(
        Hour { ach: windows(0.0, 5e-324), ..CLOSED }.conditions(),
        WindowsDoNotCool,
        Cooling,
    );
}

#[test]
fn below_the_ventilation_setpoint() {
    let house = House::new(house_p(), 26.0);
    let hour = Hour { vent: 24.2, ..CLOSED };
    house.says(hour.conditions(), NotAboveVentilationSetpoint, Cooling);
    house.says(Hour { cool: 25.0, ..hour }.conditions(), NotAboveVentilationSetpoint, Neither);
    let cold = Hour { heat: 24.2, cool: 25.0, ..hour };
    house.says(cold.conditions(), NotAboveVentilationSetpoint, Heating);
    // Neither the supplied air nor rates in another order come before it.
    let warm_air = Hour { supply: 30.0, ..hour };
    house.says(warm_air.conditions(), NotAboveVentilationSetpoint, Cooling);
    let other_order = Hour { ach: windows(10.0, 0.0), ..hour };
    house.says(other_order.conditions(), NotAboveVentilationSetpoint, Neither);
}

#[test]
fn below_the_supplied_air() {
    let house = House::new(house_p(), 26.0);
    let hour = Hour { supply: 25.0, ..CLOSED };
    house.says(hour.conditions(), NotAboveSupply, Cooling);
    house.says(Hour { cool: 25.0, ..hour }.conditions(), NotAboveSupply, Neither);
    // Here windows open would lower the temperature, but the rates are told apart later.
    let other_order = Hour { ach: windows(1.0, 0.0), ..hour };
    house.says(other_order.conditions(), NotAboveSupply, Cooling);
}

#[test]
fn windows_that_do_not_cool() {
    let house = House::new(house_p(), 26.0);
    let hour = Hour { cool: 21.1, vent: 21.0, ach: windows(10.0, 0.0), ..CLOSED };
    house.says(hour.conditions(), WindowsDoNotCool, Cooling);
    house.says(Hour { cool: 25.0, ..hour }.conditions(), WindowsDoNotCool, Neither);
}

#[test]
fn windows_that_are_enough_or_not() {
    let house = House::new(house_p(), 26.0);
    house.says(CLOSED.conditions(), WindowsEnough, Neither);
    house.says(Hour { cool: 22.1, ..CLOSED }.conditions(), WindowsEnough, Neither);
    house.says(Hour { cool: 21.9, ..CLOSED }.conditions(), StillAboveCoolingSetpoint, Cooling);
    // Open as far as they go, they reach 21.26 °C.
    let all = Hour { vent: 21.0, ..CLOSED };
    house.says(Hour { cool: 21.3, ..all }.conditions(), WindowsEnough, Neither);
    house.says(Hour { cool: 21.2, ..all }.conditions(), StillAboveCoolingSetpoint, Cooling);
}

// ---- the two closenesses ----

/// The same hours colder by so many degrees, outside and inside.
fn colder(mut hour: Conditions, by: f64) -> Conditions {
    for temp in [
        &mut hour.temp_ext_air,
        &mut hour.avg_air_supply_temp,
        &mut hour.temp_setpnt_heat,
        &mut hour.temp_setpnt_cool,
        &mut hour.temp_setpnt_cool_vent,
        &mut hour.elements[0].temp_ext,
    ] {
        *temp -= by;
    }
    hour
}

#[test]
fn windows_are_enough_and_the_hour_is_cooled() {
    // Around 4 °C a temperature is close to another by the windows test within 1e-8, by the demand within 4e-9.
    let house = House::new(house_p(), 8.0);
    for (below, reason, load) in [
        (2e-9, WindowsEnough, Neither),
        (6e-9, WindowsEnough, Cooling),
        (2e-8, StillAboveCoolingSetpoint, Cooling),
    ] {
        let mut hour = colder(CLOSED.conditions(), 18.0);
        hour.temp_setpnt_cool = hour.temp_setpnt_cool_vent - below;
        house.says(hour, reason, load);
    }
}

#[test]
fn still_above_the_cooling_setpoint_and_the_hour_is_not_cooled() {
    // Around 24 °C the windows test has 1e-8, the demand 2.4e-8. Windows lower the temperature by 1e-9.
    let house = House::new(house_p(), 26.0);
    let hour = Hour { vent: 21.0, ach: windows(0.0, 1e-9), ..CLOSED };
    let free = 24.192708333333332;
    for (below, reason, load) in [
        (5e-9, WindowsEnough, Neither),
        (1.5e-8, StillAboveCoolingSetpoint, Neither),
        (3e-8, StillAboveCoolingSetpoint, Cooling),
    ] {
        house.says(Hour { cool: free - below, ..hour }.conditions(), reason, load);
    }
}

// ---- rounding ----

#[test]
fn windows_are_enough_and_the_hour_is_heated() {
    // An area so small that area × temperature has no digits left: the surface counts by whole degrees, and the
    // rate that is to bring the zone to 21.7 °C brings it to 21.67 °C. Both setpoints are at 21.7 °C.
    let mut head = Head { temp_setpnt_basis: Basis::Operative, ..house_p() };
    head.elements[0].area = 5e-324;
    let hour = Hour { heat: 21.7, cool: 26.0, vent: 21.7, ..CLOSED };
    House::new(head, 26.0).says(hour.conditions(), WindowsEnough, Heating);
}

/// A house so small that the load that is tried, 10 W for each m² of useful area, is lost in the rounding of what
/// heating gives in any case, 1e7 W, which internal gains take away again.
fn lost_in_rounding(useful_area: f64) -> Head {
    let mut head = Head { temp_setpnt_basis: Basis::Operative, useful_area, ..house_p() };
    (head.volume, head.tb_heat_trans_coeff, head.elements[0].area) = (1.0, 0.1, 0.01);
    head
}

fn with_gains(hour: Conditions) -> Conditions {
    Conditions {
        gains_internal: -1e7,
        gains_heat_cool_convective: 4e6,
        gains_heat_cool_radiative: 6e6,
        ..hour
    }
}

#[test]
fn a_load_that_is_lost_in_rounding_may_turn_its_sign() {
    let hour = Hour { heat: 5.0, cool: 20.0, vent: 20.8, supply: 10.0, ach: windows(0.0, 1.0) };
    let close = Hour { cool: 20.5 - 5e-9, vent: 20.5, ..hour };
    // In the first house the calculation with the load of cooling is, by rounding, warmer than that without: so
    // the demand that is found between the two is one of heating.
    for (useful_area, load) in [(5e-11, Heating), (1e-10, Cooling)] {
        let warm = House::new(lost_in_rounding(useful_area), 26.0);
        let fixed = Hour { ach: AirChangesPerHour::Cooling { ach_cooling: 0.0 }, ..hour };
        warm.says(with_gains(fixed.conditions()), NoChoice, load);
        let no_control = Hour { vent: NO_CONTROL, ..hour };
        warm.says(with_gains(no_control.conditions()), NotAboveVentilationSetpoint, load);
        warm.says(with_gains(Hour { supply: 40.0, ..hour }.conditions()), NotAboveSupply, load);
        let other_order = Hour { ach: windows(0.001, 0.0), ..hour };
        warm.says(with_gains(other_order.conditions()), WindowsDoNotCool, load);
        warm.says(with_gains(hour.conditions()), StillAboveCoolingSetpoint, load);
        let cold = House::new(lost_in_rounding(useful_area), 8.0);
        let close = with_gains(colder(close.conditions(), 18.0));
        cold.says(close, WindowsEnough, load);
    }
}
