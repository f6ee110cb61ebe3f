//! The heat balance of an hour, W, with the original's names in the original's order; behind the original's
//! four at the internal boundary the convective total by direction of heat flow.
use crate::ffi::BALANCE;

macro_rules! balance_part {
    ($(#[$doc:meta])* $name:ident { $($field:ident),* $(,)? }) => {
        $(#[$doc])*
        #[derive(Clone, Copy, Debug, PartialEq)]
        #[allow(missing_docs)]
        pub struct $name { $(pub $field: f64),* }

        impl $name {
            /// The values in order, each with its name.
            pub fn named(&self) -> Vec<(&'static str, f64)> {
                vec![$((stringify!($field), self.$field)),*]
            }

            fn read(values: &mut impl Iterator<Item = f64>) -> Self {
                let mut next = || values.next().expect("a value of the balance");
                Self { $($field: next()),* }
            }
        }
    };
}

balance_part!(
    /// Heat to and from the air node.
    HeatBalanceAirNode {
        solar_gains,
        internal_gains,
        heating_or_cooling_system_gains,
        energy_to_change_internal_temperature,
        thermal_bridges,
        infiltration_ventilation,
        fabric_heat_loss,
    }
);

balance_part!(
    /// Heat into the inner surfaces. The last three are the terms of the first, one for each element, by the
    /// direction in which heat flowed at its inner surface before the hour.
    HeatBalanceInternalBoundary {
        fabric_int_air_convective,
        fabric_int_sol,
        fabric_int_int_gains,
        fabric_int_heat_cool,
        fabric_int_air_convective_horizontal,
        fabric_int_air_convective_upwards,
        fabric_int_air_convective_downwards,
    }
);

balance_part!(
    /// Heat across the outer surfaces; the last five are the fabric by kind of element (ztc: adjacent
    /// conditioned space, ztu: adjacent unconditioned space and party walls).
    HeatBalanceExternalBoundary {
        solar_gains,
        internal_gains,
        heating_or_cooling_system_gains,
        thermal_bridges,
        infiltration_ventilation,
        fabric_ext_air_convective,
        fabric_ext_air_radiative,
        fabric_ext_sol,
        fabric_ext_sky,
        opaque_fabric_ext,
        transparent_fabric_ext,
        ground_fabric_ext,
        ztc_fabric_ext,
        ztu_fabric_ext,
    }
);

/// The heat balance of one hour.
#[derive(Clone, Copy, Debug, PartialEq)]
#[allow(missing_docs)]
pub struct HeatBalance {
    pub air_node: HeatBalanceAirNode,
    pub internal_boundary: HeatBalanceInternalBoundary,
    pub external_boundary: HeatBalanceExternalBoundary,
}

impl HeatBalance {
    pub(crate) fn of_values(values: &[f64; BALANCE]) -> Self {
        let mut values = values.iter().copied();
        Self {
            air_node: HeatBalanceAirNode::read(&mut values),
            internal_boundary: HeatBalanceInternalBoundary::read(&mut values),
            external_boundary: HeatBalanceExternalBoundary::read(&mut values),
        }
    }
}

#[cfg(test)]
mod tests {
    use super::*;

    #[test]
    fn values_stand_in_the_original_order() {
        let values = std::array::from_fn(|i| i as f64);
        let balance = HeatBalance::of_values(&values);
        assert_eq!(balance.air_node.solar_gains, 0.0);
        assert_eq!(balance.air_node.fabric_heat_loss, 6.0);
        assert_eq!(balance.internal_boundary.fabric_int_air_convective, 7.0);
        assert_eq!(balance.internal_boundary.fabric_int_heat_cool, 10.0);
        assert_eq!(balance.internal_boundary.fabric_int_air_convective_horizontal, 11.0);
        assert_eq!(balance.internal_boundary.fabric_int_air_convective_upwards, 12.0);
        assert_eq!(balance.internal_boundary.fabric_int_air_convective_downwards, 13.0);
        assert_eq!(balance.external_boundary.solar_gains, 14.0);
        assert_eq!(balance.external_boundary.ztu_fabric_ext, 27.0);
        assert_eq!(balance.external_boundary.named()[13], ("ztu_fabric_ext", 27.0));
    }
}
