//! hem-year report: figures by length, held against the book itself.
mod common;

use common::hours::{varied, with_year};
use common::Folder;
use hem_zone::samples::{element_hour_p, hour_p, house_p};
use hem_zone::{Book, Conditions, ElementHour, Head};

/// The number before a word in a text.
fn number_before(text: &str, word: &str) -> f64 {
    let before = text[..text.find(word).unwrap_or_else(|| panic!("{word} in {text}"))].trim_end();
    before.rsplit([' ', '(']).next().unwrap().replace(',', "").parse().unwrap()
}

fn line<'a>(text: &'a str, beginning: &str) -> &'a str {
    text.lines().find(|line| line.starts_with(beginning)).unwrap_or_else(|| panic!("{beginning}"))
}

// ---- hours are lengths ----

#[test]
fn totals_and_durations_go_by_length() {
    for (count, length, held) in [
        (3000, 0.25, "750 hours in 3,000 steps"),
        (41, 0.25, "10.25 hours in 41 steps"),
        (70, 36.0, "2,520 hours in 70 steps"),
        (40, 1.0, "40 hours"),
    ] {
        let (folder, book) = with_year("lengths", &varied(count, length));
        let report = folder.call(&["report", "p.book"]).done();
        assert!(report.contains(&format!("{held} held, from 1 Jan 00:00 to ")), "{report}");
        let demand: Vec<_> = book.entries().map(|entry| entry.demand()).collect();
        let heated = demand.iter().filter(|d| d.space_heat_demand > 0.0).count() as f64 * length;
        let cooled = demand.iter().filter(|d| d.space_cool_demand < 0.0).count() as f64 * length;
        let windows = demand.iter().filter(|d| d.ach_cooling > 0.5).count() as f64 * length;
        let heating: f64 = demand.iter().map(|d| d.space_heat_demand).sum();
        let peak = demand.iter().map(|d| d.space_heat_demand / length).fold(0.0, f64::max);
        assert!(heated > 0.0 && (count < 3000 || cooled > 0.0 && windows > 0.0));
        let heating_line = line(&report, "Heating");
        assert_eq!(number_before(heating_line, " hour"), heated, "{report}");
        assert_eq!(
            number_before(heating_line, " kWh"),
            (heating * 10.0).round() / 10.0,
            "{report}"
        );
        assert_eq!(number_before(heating_line, " kW,"), (peak * 100.0).round() / 100.0, "{report}");
        assert_eq!(number_before(line(&report, "Cooling"), " hour"), cooled, "{report}");
        assert_eq!(number_before(line(&report, "Windows"), " hour"), windows, "{report}");
    }
}

#[test]
fn one_hour_is_no_hours() {
    let (folder, _) = with_year("one", &hour_p(21.0, 24.0).to_bytes());
    let report = folder.call(&["report", "p.book"]).done();
    let by = concat!("p.book, by hem-year ", env!("CARGO_PKG_VERSION"), ": 1 hour held, ");
    assert!(report.contains(&format!("{by}from 1 Jan 00:00 to 1 Jan 01:00")), "{report}");
    assert!(report.contains("0.1 kWh (0.0 kWh/m²) in 1 hour, highest 0.14 kW"), "{report}");
    assert!(report.contains("useful floor area 36 m², 1 element, 3 nodes"), "{report}");
}

const MONTHS: [&str; 12] =
    ["Jan", "Feb", "Mar", "Apr", "May", "Jun", "Jul", "Aug", "Sep", "Oct", "Nov", "Dec"];

/// The numbers of a month in a report.
fn month(report: &str, name: &str) -> Vec<f64> {
    let numbers = line(report, &format!("{name} ")).split_whitespace().skip(1);
    numbers.map(|number| number.parse().unwrap()).collect()
}

#[test]
fn months_are_shared_out_by_time_and_sum_to_the_total() {
    // Steps of 30 hours cross the ends of months; the last begins on 30 December and ends next year.
    let (folder, book) = with_year("months", &varied(292, 30.125));
    let report = folder.call(&["report", "p.book"]).done();
    let rows: Vec<Vec<f64>> =
        MONTHS.into_iter().chain(["later"]).map(|name| month(&report, name)).collect();
    let sum = |column: usize| rows.iter().map(|row| row[column]).sum::<f64>();
    let heating: f64 = book.entries().map(|entry| entry.demand().space_heat_demand).sum();
    assert!((sum(0) - heating).abs() < 0.7, "{} and {heating} in {report}", sum(0));
    // January has 24 whole steps and a part of the 25th.
    let part = |i: usize| ((744.0 - 30.125 * i as f64) / 30.125).clamp(0.0, 1.0);
    let energy = |(i, entry): (usize, hem_zone::Entry)| part(i) * entry.demand().space_heat_demand;
    let january: f64 = book.entries().enumerate().map(energy).sum();
    assert_eq!(format!("{january:.1}"), format!("{:.1}", rows[0][0]));
    let mean: f64 =
        book.entries().enumerate().map(|(i, e)| part(i) * e.conditions().temp_ext_air).sum();
    assert_eq!(format!("{:.1}", mean * 30.125 / 744.0), format!("{:.1}", rows[0][5]), "{report}");
}

// ---- how long it was warm ----

/// The columns of the months that say for how long it was above 26 and 28 °C.
const WARM: [(f64, usize); 2] = [(26.0, 7), (28.0, 8)];
const DAYS: [usize; 12] = [31, 28, 31, 30, 31, 30, 31, 31, 30, 31, 30, 31];

#[test]
fn warm_hours_are_counted_by_month() {
    let folder = Folder::new("warm");
    folder.call(&["sample", "."]).done();
    let run = ["run", "terrace.head", "terrace.year", "t.book", "--cooling-limit", "0"];
    folder.call(&run).done();
    let report = folder.call(&["report", "t.book", "--svg", "x.svg"]).done();
    let book = Book::take_up(&folder.read("t.book")).unwrap();
    let temperatures: Vec<f64> = book.entries().map(|entry| entry.temp_operative()).collect();
    let mut first = 0;
    for (name, days) in MONTHS.into_iter().zip(DAYS) {
        let hours = &temperatures[first..first + 24 * days];
        for (threshold, column) in WARM {
            let count = hours.iter().filter(|t| **t > threshold).count();
            assert_eq!(month(&report, name)[column], count as f64, "{name}, {threshold} °C");
        }
        first += hours.len();
    }
    let [above, far_above] =
        WARM.map(|(threshold, _)| temperatures.iter().filter(|t| **t > threshold).count());
    assert!(above > 50 && far_above > 1, "{above} {far_above}");
    let words =
        format!("Warm       above 26 °C in {above} hours, above 28 °C in {far_above} hours");
    assert_eq!(line(&report, "Warm"), words);
    let words = format!(">operative, {above} h above 26 °C, {far_above} h above 28 °C</tspan>");
    assert!(folder.text("x.svg").contains(&words), "{words}");
}

#[test]
fn warm_hours_go_by_length_and_are_shared_out_by_time() {
    let (length, count) = (30.125, 292);
    let (folder, book) = with_year("warm_steps", &varied(count, length));
    let report = folder.call(&["report", "p.book"]).done();
    let mut start = 0.0;
    for (name, days) in MONTHS.into_iter().zip(DAYS) {
        let end = start + 24.0 * days as f64;
        for (threshold, column) in WARM {
            let mut time = 0.0;
            for (i, entry) in book.entries().enumerate() {
                let (from, to) = (length * i as f64, length * (i + 1) as f64);
                if entry.temp_operative() > threshold {
                    time += (to.min(end) - from.max(start)).max(0.0);
                }
            }
            let told = month(&report, name)[column];
            assert!((told - time).abs() < 0.051, "{name}, {threshold} °C: {told} and {time}");
        }
        start = end;
    }
    let total = |threshold: f64| {
        let warm = book.entries().filter(|entry| entry.temp_operative() > threshold);
        warm.count() as f64 * length
    };
    let told = line(&report, "Warm").replace(',', "");
    let words =
        format!("above 26 °C in {} hours above 28 °C in {} hours", total(26.0), total(28.0));
    assert!(total(28.0) > 0.0 && told.ends_with(&words), "{told}: {words}");
}

#[test]
fn an_hour_at_26_degrees_is_not_above_them() {
    // A house in which everything is at 26 °C and stays there.
    let element = ElementHour { temp_ext: 26.0, ..element_hour_p() };
    let mut head = Head { temp_ext_air_init: 26.0, temp_setpnt_init: 26.0, ..house_p() };
    head.elements[0].first_hour = element;
    let air = Conditions { temp_ext_air: 26.0, avg_air_supply_temp: 26.0, ..hour_p(20.0, 30.0) };
    let hour = Conditions { elements: vec![element], ..air };
    let folder = Folder::new("at_26");
    folder.write("p.head", &head.to_bytes());
    folder.write("p.year", &hour.to_bytes());
    folder.run().done();
    let book = Book::take_up(&folder.read("p.book")).unwrap();
    assert_eq!(book.entry(0).unwrap().temp_operative(), 26.0);
    let report = folder.call(&["report", "p.book"]).done();
    assert_eq!(line(&report, "Warm"), "Warm       above 26 °C in 0 hours, above 28 °C in 0 hours");
    assert_eq!(month(&report, "Jan")[7..], [0.0, 0.0]);
    // Of no hours there is nothing to tell.
    let report = folder.call(&["report", "p.head"]).done();
    assert!(report.contains("no hours held") && !report.contains("Warm"), "{report}");
}

// ---- the highest hours ----

#[test]
fn the_highest_hours_say_what_they_came_from() {
    let year: Vec<u8> = (0..50_usize)
        .flat_map(|i| {
            let heat = if i % 24 < 7 { 16.0 } else { 20.0 };
            let cold = Conditions { temp_ext_air: 2.0 + i as f64 / 10.0, ..hour_p(heat, 24.0) };
            Conditions { avg_air_supply_temp: cold.temp_ext_air, gains_internal: -1000.0, ..cold }
                .to_bytes()
        })
        .collect();
    let (folder, book) = with_year("highest", &year);
    let report = folder.call(&["report", "p.book"]).done();
    let table: Vec<&str> = report
        .lines()
        .skip_while(|line| !line.starts_with("Highest heating"))
        .skip(1)
        .take(10)
        .collect();
    // The first hour of each day with the higher setpoint comes first, as one after a setback.
    let before = |place: usize| book.entry(place - 1).unwrap().temp_operative();
    for (row, place) in [(0, 7_usize), (1, 31)] {
        let power = book.entry(place).unwrap().demand().space_heat_demand;
        let date = format!("{} Jan 07:00", 1 + place / 24);
        let outside = 2.0 + place as f64 / 10.0;
        let words = [
            &format!("hour {:4}", place + 1),
            &date,
            &format!("{power:.2}"),
            &format!("{outside:.1} °C"),
            "20.0 °C",
            &format!("{:.1} °C", before(place)),
            "warm-up",
        ];
        let mut rest = table[row];
        for word in words {
            let at = rest.find(word).unwrap_or_else(|| panic!("{word} in {}", table[row]));
            rest = &rest[at + word.len()..];
        }
    }
    assert!(!table[2].contains("warm-up") && table[9].starts_with("10  hour"), "{report}");
    assert!(
        report.contains("warm-up: after a setback: the setpoint is higher than in the hour before")
    );
    let steady = book.entries().enumerate().filter(|(i, _)| *i != 7 && *i != 31);
    let steady = steady.map(|(_, e)| e.demand().space_heat_demand).fold(0.0, f64::max);
    assert!(report.contains(&format!("the highest other hour has {steady:.2} kW")), "{report}");
    assert!(report.contains("Highest cooling: none"), "{report}");
}
