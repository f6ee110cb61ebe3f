//! What is said of an hour's load: heating, cooling or neither, and why.
use crate::why_told::Told;
use crate::words;
use hem_zone::{Load, NO_CONTROL};

/// The temperature that the load is judged by: the one at the end of the hour at its rate, without its demand.
pub struct Judged {
    pub temperature: f64,
    /// The words that lead to it, as `26.4 °C is`.
    pub words: String,
}

/// What the hour asks for, and why, where the temperature that decided is known.
pub fn load(told: &Told, load: Load, judged: Option<&Judged>) -> String {
    let since = match judged {
        Some(judged) => since(told, load, judged),
        None => aim(told, load),
    };
    format!("the hour asks for {}{since}", asked(told, load))
}

fn asked(told: &Told, load: Load) -> String {
    let energy = |kwh: f64| words::told(kwh, 2, &[0.0]);
    let demand = &told.hour.demand;
    match load {
        Load::Heating => format!("{} kWh of heating", energy(demand.space_heat_demand)),
        Load::Cooling => format!("{} kWh of cooling", energy(-demand.space_cool_demand)),
        Load::Neither => "neither heating nor cooling".into(),
    }
}

/// Why, by the temperature. Where that does not tell, which no house should see, nothing is said.
fn since(told: &Told, load: Load, Judged { temperature, words }: &Judged) -> String {
    let conditions = &told.hour.conditions;
    let (heat, cool) = (conditions.temp_setpnt_heat, conditions.temp_setpnt_cool);
    let (below, above) = (*temperature < heat, *temperature > cool);
    let where_it_lies = match load {
        Load::Heating if below => format!("below {}", told.heating_setpoint()),
        Load::Cooling if above => format!("above {}", told.cooling_setpoint()),
        Load::Neither if below && near(*temperature, heat) => {
            format!("close to {}", told.heating_setpoint())
        }
        Load::Neither if above && near(*temperature, cool) => {
            format!("close to {}", told.cooling_setpoint())
        }
        Load::Neither if !below && !above => between(told, heat, cool),
        _ => return String::new(),
    };
    format!(", since {words} {where_it_lies}")
}

/// The demand takes a temperature that is close to a setpoint for the setpoint. How close that is is for the
/// engine to say: far closer than this, which only keeps the word from being false.
fn near(temperature: f64, setpoint: f64) -> bool {
    (temperature - setpoint).abs() <= 1e-6 * setpoint.abs().max(1.0)
}

fn between(told: &Told, heat: f64, cool: f64) -> String {
    match cool == NO_CONTROL {
        true => format!("not below {}, and there is no cooling setpoint", told.heating_setpoint()),
        false => {
            format!("within the setpoints of {} and {} °C", told.of_load(heat), told.of_load(cool))
        }
    }
}

/// What the demand is for, whatever the temperature was.
fn aim(told: &Told, load: Load) -> String {
    match load {
        Load::Heating => format!(", to reach {}", told.heating_setpoint()),
        Load::Cooling => format!(", to keep to {}", told.cooling_setpoint()),
        Load::Neither => String::new(),
    }
}
