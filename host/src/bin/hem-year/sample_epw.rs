//! The weather of the sample year as an EnergyPlus weather file.
use crate::calendar::Moment;
use crate::sample_weather::Weather;
use std::fmt::Write;

/// The eight header lines. There are no measured data, and no place.
const HEADERS: [&str; 8] = [
    "LOCATION,Sample of hem-year,-,-,fixed formula,0,51.5,0.0,0.0,0.0",
    "DESIGN CONDITIONS,0",
    "TYPICAL/EXTREME PERIODS,0",
    "GROUND TEMPERATURES,0",
    "HOLIDAYS/DAYLIGHT SAVINGS,No,0,0,0",
    "COMMENTS 1,Weather and sun of the sample year by a fixed formula: no measured data",
    "COMMENTS 2,All values but dry bulb and direct normal and diffuse horizontal radiation are missing",
    "DATA PERIODS,1,1,Data,Monday,1/1,12/31",
];

/// Dew point to global horizontal radiation, as they are missing.
const BEFORE_RADIATION: &str = "99.9,999,999999,9999,9999,9999,9999";
/// Illuminance to precipitation, likewise.
const BEHIND_RADIATION: &str =
    "999999,999999,999999,9999,999,999,99,99,9999,99999,9,999999999,999,.999,\
                                999,99,999,999,99";

/// The file. Its lines end as those of weather files mostly do.
pub fn epw(hours: usize) -> String {
    let mut text = HEADERS.map(|line| format!("{line}\r\n")).concat();
    for hour in 0..hours {
        let weather = Weather::at(hour);
        let (direct, diffuse) = weather.radiation();
        let _ = write!(
            text,
            "{},{},60,,{},{BEFORE_RADIATION},{direct},{diffuse},{BEHIND_RADIATION}\r\n",
            Moment(hour as f64).iso()[..10].replace("-0", ",").replace('-', ","),
            hour % 24 + 1,
            weather.temp_ext(),
        );
    }
    text
}
