//! Times of reading weather: a file of a year, with 35 fields in a line and CR LF at its end, as such files have them.
use crate::{best_of, say, HOURS};
use hem_zone::ffi::{hem_weather, WEATHER};
use hem_zone::weather_lines;

/// A call for the last line goes through the whole file, so there are fewer of them.
const CALLS: [(&str, usize, usize); 2] = [("first", 1, HOURS), ("last", HOURS, 50)];

/// One call for the first and for the last line, and all lines in one pass: nanoseconds for a line.
pub fn times(repetitions: usize) {
    let file = year();
    for (name, line, calls) in CALLS {
        let time = best_of(repetitions, calls, || {
            for _ in 0..calls {
                std::hint::black_box(weather(&file, line as u64));
            }
        });
        say(format!("weather {HOURS} {name} {time:.0}"));
    }
    let time = best_of(repetitions, HOURS, || {
        let sum: f64 = weather_lines(&file).map(|line| line.unwrap().dry_bulb).sum();
        assert!(std::hint::black_box(sum).is_finite());
    });
    say(format!("weather_lines {HOURS} all {time:.0}"));
}

fn weather(file: &[u8], line: u64) -> [f64; WEATHER] {
    let mut weather = [0.0; WEATHER];
    // SAFETY: the file is valid for its length, the array has the interface's size.
    let answer = unsafe { hem_weather(file.as_ptr(), file.len(), line, weather.as_mut_ptr()) };
    assert_eq!(answer, 0, "refused with {}", answer & 255);
    weather
}

/// The eight header lines, and a line for each hour.
fn year() -> Vec<u8> {
    let headers = "COMMENTS 1,a header line of a weather file\r\n".repeat(8);
    let lines: String = (0..HOURS).map(line).collect();
    (headers + &lines).into_bytes()
}

fn line(hour: usize) -> String {
    let (month, day, time) = (1 + hour / 730, 1 + hour / 24 % 28, 1 + hour % 24);
    let (tenths, sun) = (hour % 10, if (8..18).contains(&time) { hour % 900 } else { 0 });
    format!(
        "1999,{month},{day},{time},60,?9?9?9?9E0?9?9?9?9?9?9?9?9?9?9?9?9?9?9?9?9?9*9*9,{}.{tenths},{}.{tenths},93,101300,0,0,\
         290,{sun},{sun},{},0,0,0,0,220,3.1,10,8,20.1,22000,9,999999999,159,0.2150,0,88,0.000,0.0,0.0\r\n",
        hour as i64 % 40 - 10,
        hour % 9,
        sun / 3,
    )
}
