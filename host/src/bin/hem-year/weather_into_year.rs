//! Weather in the conditions of hours.
use crate::failure::Failure;
use crate::inputs::{self, House};
use crate::kind::Kind;
use crate::show::plan_of_year;
use crate::weather_columns::{Column, Quantity, Value};
use crate::weather_into::Hours;
use hem_zone::text::hours_of_form;
use hem_zone::{Conditions, Weather};
use std::path::Path;

pub struct HoursYear<'a> {
    path: &'a Path,
    hours: Vec<Conditions>,
    /// The names of the elements.
    names: Vec<String>,
}

impl<'a> HoursYear<'a> {
    pub fn read(path: &'a Path, bytes: &[u8], house: Option<&House>) -> Result<Self, Failure> {
        let plan = match house {
            Some(house) => house.plan.clone(),
            None => plan_of_year(path, bytes, "is neither a table of hours nor conditions")?,
        };
        let names = plan.names().to_vec();
        let hours = hours_of_form(bytes, names.len()).map_err(|text| Failure::file(path, text))?;
        inputs::must_fit_a_book(path, hours.len())?;
        Ok(Self { path, hours, names })
    }

    /// The elements that a column is of.
    fn elements(&self, column: &Column) -> Vec<usize> {
        let names = self.names.iter().enumerate();
        let own = names.filter(|(_, name)| column.element.as_ref().is_none_or(|e| e == *name));
        own.map(|(place, _)| place).collect()
    }

    fn set(&self, hour: &mut Conditions, column: &Column, number: f64) {
        match column.value {
            Value::TempExtAir => hour.temp_ext_air = number,
            Value::AvgAirSupplyTemp => hour.avg_air_supply_temp = number,
            Value::TempExt | Value::ISolDir | Value::ISolDif => {
                for place in self.elements(column) {
                    let element = &mut hour.elements[place];
                    *match column.value {
                        Value::ISolDir => &mut element.i_sol_dir,
                        Value::ISolDif => &mut element.i_sol_dif,
                        _ => &mut element.temp_ext,
                    } = number;
                }
            }
        }
    }
}

impl Hours for HoursYear<'_> {
    fn count(&self) -> usize {
        self.hours.len()
    }

    fn must_have(&self, column: &Column) -> Result<(), String> {
        match self.elements(column).is_empty() {
            false => Ok(()),
            true => Err(format!(
                "there is no {}; the elements are {}",
                column.name(),
                self.names.join(", ")
            )),
        }
    }

    fn temperatures(&self) -> Vec<(Column, Vec<Option<f64>>)> {
        let series = |value: &dyn Fn(&Conditions) -> f64| {
            self.hours.iter().map(|hour| Some(value(hour))).collect()
        };
        let of = |value, element| Column::new(Quantity::DryBulb, value, element);
        let mut all = vec![
            (of(Value::TempExtAir, None), series(&|hour| hour.temp_ext_air)),
            (of(Value::AvgAirSupplyTemp, None), series(&|hour| hour.avg_air_supply_temp)),
        ];
        for (place, name) in self.names.iter().enumerate() {
            let values = series(&|hour| hour.elements[place].temp_ext);
            all.push((of(Value::TempExt, Some(name)), values));
        }
        all
    }

    fn covers(&self, named: &Column, other: &Column) -> bool {
        named.value == other.value && (named.element.is_none() || named.element == other.element)
    }

    fn with(&self, columns: &[Column], weather: &[Weather]) -> Vec<u8> {
        // An element's own goes before that of all elements.
        let (own, of_all): (Vec<&Column>, Vec<&Column>) =
            columns.iter().partition(|column| column.element.is_some());
        let mut made = vec![];
        for (hour, weather) in self.hours.iter().zip(weather) {
            let mut hour = hour.clone();
            for column in of_all.iter().chain(&own) {
                self.set(&mut hour, column, column.number(weather));
            }
            made.extend(hour.to_bytes());
        }
        made
    }

    fn judge(&self, file: &[u8], house: &House) -> Result<(), Failure> {
        let hours = file.chunks(house.zone.layout().conditions_len());
        inputs::judge(self.path, &house.zone, hours)
    }

    fn kind(&self) -> Kind {
        Kind::Year
    }
}
