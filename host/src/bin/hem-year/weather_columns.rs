//! The columns of hours that take the weather of a line.
use crate::failure::Failure;
use crate::given::Words;
use hem_zone::text::{read_number, write_number};
use hem_zone::Weather;
use std::ffi::OsStr;
use std::fmt;

/// A number that a line of a weather file has.
#[derive(Clone, Copy, Debug, PartialEq)]
pub enum Quantity {
    DryBulb,
    DirectNormal,
    DiffuseHorizontal,
}

/// A value of an hour that takes one of them.
#[derive(Clone, Copy, Debug, PartialEq)]
pub enum Value {
    TempExtAir,
    AvgAirSupplyTemp,
    TempExt,
    ISolDir,
    ISolDif,
}

/// A column of hours, by the name of its heading.
#[derive(Clone, Debug, PartialEq)]
pub struct Column {
    pub quantity: Quantity,
    pub value: Value,
    /// The element that has it; of what each element has, none stands for all.
    pub element: Option<String>,
    /// What a radiation is multiplied by.
    pub factor: Option<f64>,
}

impl Quantity {
    pub const ALL: [Self; 3] = [Self::DryBulb, Self::DirectNormal, Self::DiffuseHorizontal];

    pub fn of(self, weather: &Weather) -> f64 {
        match self {
            Self::DryBulb => weather.dry_bulb,
            Self::DirectNormal => weather.direct_normal,
            Self::DiffuseHorizontal => weather.diffuse_horizontal,
        }
    }

    pub fn title(self) -> &'static str {
        match self {
            Self::DryBulb => "Dry bulb",
            Self::DirectNormal => "Direct normal",
            Self::DiffuseHorizontal => "Diffuse horizontal",
        }
    }

    /// As a weather file has it. The energy of an hour is its mean power in W/m².
    pub fn unit(self) -> &'static str {
        match self {
            Self::DryBulb => "°C",
            _ => "Wh/m²",
        }
    }

    /// The option that names its columns.
    fn option(self) -> &'static str {
        match self {
            Self::DryBulb => "dry-bulb",
            Self::DirectNormal => "direct",
            Self::DiffuseHorizontal => "diffuse",
        }
    }

    /// The values that take it.
    fn values(self) -> &'static [Value] {
        match self {
            Self::DryBulb => &[Value::TempExtAir, Value::AvgAirSupplyTemp, Value::TempExt],
            Self::DirectNormal => &[Value::ISolDir],
            Self::DiffuseHorizontal => &[Value::ISolDif],
        }
    }
}

impl Value {
    fn name(self) -> &'static str {
        match self {
            Self::TempExtAir => "temp_ext_air",
            Self::AvgAirSupplyTemp => "avg_air_supply_temp",
            Self::TempExt => "temp_ext",
            Self::ISolDir => "i_sol_dir",
            Self::ISolDif => "i_sol_dif",
        }
    }

    /// Whether each element has one of its own.
    fn of_element(self) -> bool {
        !matches!(self, Self::TempExtAir | Self::AvgAirSupplyTemp)
    }
}

impl Column {
    pub fn new(quantity: Quantity, value: Value, element: Option<&str>) -> Self {
        Self { quantity, value, element: element.map(String::from), factor: None }
    }

    /// The column of a heading that takes this quantity. The name of an element may have points too.
    pub fn of_heading(quantity: Quantity, heading: &str) -> Option<Self> {
        let known = |name: &str| quantity.values().iter().find(|value| value.name() == name);
        if let Some(value) = known(heading) {
            return Some(Self::new(quantity, *value, None));
        }
        let (element, name) = heading.rsplit_once('.')?;
        let value = known(name).filter(|value| value.of_element())?;
        Some(Self::new(quantity, *value, Some(element)))
    }

    /// The heading of the column.
    pub fn name(&self) -> String {
        match &self.element {
            Some(element) => format!("{element}.{}", self.value.name()),
            None => self.value.name().into(),
        }
    }

    /// What the column gets from a line; a factor means one product, which rounds once.
    pub fn number(&self, weather: &Weather) -> f64 {
        let number = self.quantity.of(weather);
        self.factor.map_or(number, |factor| factor * number)
    }
}

/// The name, with the factor where there is one.
impl fmt::Display for Column {
    fn fmt(&self, f: &mut fmt::Formatter) -> fmt::Result {
        f.write_str(&self.name())?;
        self.factor.map_or(Ok(()), |factor| write!(f, " (× {})", write_number(factor)))
    }
}

// ---- the options ----

/// The columns that the options name. The dry bulb is the external air's temperature, where nothing else
/// is said of it.
pub fn named(words: &Words) -> Result<Vec<Column>, Failure> {
    let mut columns: Vec<Column> = vec![];
    for quantity in Quantity::ALL {
        let option = quantity.option();
        let items = match (words.value(option), quantity) {
            (Some(list), _) => items(list),
            (None, Quantity::DryBulb) => vec![Value::TempExtAir.name().into()],
            (None, _) => vec![],
        };
        for item in items {
            let column = column(quantity, &item)
                .map_err(|text| words.wrong(format_args!("--{option}: {text}")))?;
            if columns.iter().any(|other| other.name() == column.name()) {
                let text = format!("--{option}: {} is named twice", column.name());
                return Err(words.wrong(text));
            }
            columns.push(column);
        }
    }
    Ok(columns)
}

/// The names of a list: a line of CSV, as the heading of a table is, so that one with a comma in it can
/// stand in quotes.
fn items(list: &OsStr) -> Vec<String> {
    let mut builder = csv::ReaderBuilder::new();
    let lines = builder.has_headers(false).flexible(true).from_reader(list.as_encoded_bytes());
    let mut names = vec![];
    for mut line in lines.into_byte_records().flatten() {
        line.trim();
        names.extend(line.iter().map(|name| String::from_utf8_lossy(name).into_owned()));
    }
    // Line ends alone are no line of CSV.
    if names.is_empty() {
        names.push(String::new());
    }
    names
}

fn column(quantity: Quantity, item: &str) -> Result<Column, String> {
    if item.is_empty() {
        return Err("a name is empty".into());
    }
    if let Some(column) = Column::of_heading(quantity, item) {
        return Ok(column);
    }
    // A name may have an = itself, so that the factor stands behind the last one.
    let with_factor = item.rsplit_once('=').and_then(|(name, factor)| {
        Some((Column::of_heading(quantity, name.trim_end())?, factor.trim_start()))
    });
    match with_factor {
        Some((column, _)) if quantity == Quantity::DryBulb => {
            Err(format!("{} has no factor, since it is a temperature", column.name()))
        }
        Some((column, text)) => match read_number(text)
            .filter(|n| n.is_finite() && n.is_sign_positive())
        {
            Some(factor) => Ok(Column { factor: Some(factor), ..column }),
            None => {
                Err(format!("the factor of {} is {text:?}, not a number from 0 on", column.name()))
            }
        },
        None => Err(format!("{item:?} is not one of {}", names(quantity))),
    }
}

/// The names that an option takes.
fn names(quantity: Quantity) -> String {
    let values = quantity.values().iter();
    let names = values.flat_map(|value| {
        let own = value.of_element().then(|| format!("NAME.{}", value.name()));
        [Some(value.name().to_string()), own].into_iter().flatten()
    });
    names.collect::<Vec<_>>().join(", ")
}

/// The option that names these columns, as a shell takes it.
pub fn option(quantity: Quantity, names: &[String]) -> String {
    let quoted = |name: &String| match name.contains([',', '"']) {
        true => format!("\"{}\"", name.replace('"', "\"\"")),
        false => name.clone(),
    };
    let list = names.iter().map(quoted).collect::<Vec<_>>().join(",");
    let plain = |c: char| c.is_alphanumeric() || "._-,".contains(c);
    match list.chars().all(plain) {
        true => format!("--{} {list}", quantity.option()),
        false => format!("--{} '{}'", quantity.option(), list.replace('\'', r"'\''")),
    }
}
