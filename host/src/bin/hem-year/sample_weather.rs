//! Weather and sun of the sample year, by a fixed formula: the seasons, spells of some days, the hours
//! of the day. No measured data; values are rounded as a weather file has them, so that they are the
//! same on every machine.
use std::f64::consts::TAU;

const LATITUDE: f64 = 51.5;

/// Degrees to radians.
fn rad(degrees: f64) -> f64 {
    degrees / 360.0 * TAU
}

/// A wave of a number of days, from −1 to 1.
fn wave(day: f64, period: f64, phase: f64) -> f64 {
    (TAU * (day / period + phase)).sin()
}

/// −1 in mid January, 1 in mid July.
fn season(day: f64) -> f64 {
    -(TAU * (day - 17.0) / 365.0).cos()
}

/// How clear the sky is on a day, 0.05 to 1.
fn clearness(day: f64) -> f64 {
    let spells = 0.30 * wave(day, 6.1, 0.1) + 0.22 * wave(day, 13.7, 0.4);
    (0.46 + 0.08 * season(day) + spells).clamp(0.05, 1.0)
}

/// One hour of weather.
pub struct Weather {
    /// Hours since the year began.
    hour: f64,
    day: f64,
}

/// Direct and diffuse irradiance on a surface, W/m².
#[derive(Clone, Copy)]
pub struct Irradiance {
    pub direct: f64,
    pub diffuse: f64,
}

impl Weather {
    pub fn at(hour: usize) -> Self {
        Self { hour: hour as f64, day: (hour / 24) as f64 }
    }

    fn of_day(&self) -> f64 {
        self.hour % 24.0
    }

    /// External air temperature, °C, to a tenth.
    pub fn temp_ext(&self) -> f64 {
        let days = self.hour / 24.0;
        let spells = 2.6 * wave(days, 9.3, 0.2) + 1.9 * wave(days, 23.7, 0.6);
        let hot = 4.5 * season(days).max(0.0).powi(2) * wave(days, 17.0, 0.35).max(0.0);
        let swing = 2.0 + 3.4 * clearness(self.day) * (1.0 + 0.4 * season(days));
        let daily = swing * (TAU * (self.of_day() - 15.0) / 24.0).cos();
        ((10.8 + 6.6 * season(days) + spells + hot + daily) * 10.0).round() / 10.0
    }

    /// Temperature under the floor: the seasons, late and small.
    pub fn temp_ground(&self) -> f64 {
        ((10.5 + 2.5 * season(self.hour / 24.0 - 60.0)) * 10.0).round() / 10.0
    }

    /// The sine of the sun's height, and the sun as a vector: south, west, up.
    fn sun(&self) -> [f64; 3] {
        let declination = rad(-23.44) * (TAU * (self.day + 10.0) / 365.0).cos();
        let turn = rad(15.0 * (self.of_day() + 0.5 - 12.0));
        let (sin_d, cos_d) = declination.sin_cos();
        let (sin_l, cos_l) = rad(LATITUDE).sin_cos();
        [
            sin_l * cos_d * turn.cos() - cos_l * sin_d,
            cos_d * turn.sin(),
            cos_l * cos_d * turn.cos() + sin_l * sin_d,
        ]
    }

    pub fn is_day(&self) -> bool {
        self.sun()[2] > 0.0
    }

    /// Direct irradiance on a surface that faces the sun, whose height has this sine, and diffuse irradiance on
    /// the ground.
    fn normal_and_sky(&self, up: f64) -> (f64, f64) {
        let clear = clearness(self.day);
        let normal = 950.0 * clear.powi(2) * (-0.14 / up.max(0.02)).exp();
        let sky = 1000.0 * up * (0.10 + 0.22 * clear * (1.0 - clear) + 0.05 * (1.0 - clear));
        (normal, sky)
    }

    /// Direct normal and diffuse horizontal radiation of the hour, Wh/m², to a watt-hour.
    pub fn radiation(&self) -> (f64, f64) {
        match self.sun()[2] {
            up if up > 0.0 => {
                let (normal, sky) = self.normal_and_sky(up);
                (normal.round(), sky.round())
            }
            _ => (0.0, 0.0),
        }
    }

    /// Irradiance on a surface of this pitch (0 faces up) and azimuth (0 south, 90 west), to a watt.
    pub fn irradiance(&self, pitch: f64, azimuth: f64) -> Irradiance {
        let [south, west, up] = self.sun();
        if up <= 0.0 {
            return Irradiance { direct: 0.0, diffuse: 0.0 };
        }
        let (normal, sky) = self.normal_and_sky(up);
        let (sin_p, cos_p) = rad(pitch).sin_cos();
        let (sin_a, cos_a) = rad(azimuth).sin_cos();
        let facing = sin_p * (cos_a * south + sin_a * west) + cos_p * up;
        let ground = 0.2 * (normal * up + sky) * (1.0 - cos_p) / 2.0;
        Irradiance {
            direct: (normal * facing.max(0.0)).round(),
            diffuse: (sky * (1.0 + cos_p) / 2.0 + ground).round(),
        }
    }
}
