//! hem-year report: convection in the drawing, held against the table of the same report.
mod common;
mod sample;

use common::hours::{varied, with_year};
use common::table::column;
use common::Folder;
use hem_zone::samples::{element_hour_p, hour_p};
use hem_zone::{Conditions, ElementHour};
use sample::{run, sample};

const DIRECTIONS: [(&str, &str); 3] =
    [("horizontal", "#b7862b"), ("upwards", "#6b46c1"), ("downwards", "#4fb0ae")];
/// Left, right, top and bottom of the panel.
const PANEL: [f64; 4] = [78.0, 1164.0, 1280.0, 1460.0];
const MONTHS: [&str; 12] =
    ["Jan", "Feb", "Mar", "Apr", "May", "Jun", "Jul", "Aug", "Sep", "Oct", "Nov", "Dec"];
/// Places are written to a tenth.
const NEAR: f64 = 0.16;

// ---- what is drawn ----

fn attribute(line: &str, name: &str) -> Option<f64> {
    line.split(&format!(" {name}=\"")).nth(1)?.split('"').next()?.parse().ok()
}

/// Left, right, top and bottom of each bar of a colour.
fn bars(svg: &str, colour: &str) -> Vec<[f64; 4]> {
    let of_line = |line: &str| {
        let [x, y, width, height] =
            ["x", "y", "width", "height"].map(|name| attribute(line, name).unwrap());
        [x, x + width, y, y + height]
    };
    svg.lines().filter(|l| l.starts_with("<rect") && l.contains(colour)).map(of_line).collect()
}

/// The words so far below the panel.
fn below(svg: &str, distance: f64) -> Vec<&str> {
    let at = |line: &&str| attribute(line, "y") == Some(PANEL[3] + distance);
    let words = svg.lines().filter(|line| line.starts_with("<text")).filter(at);
    words.filter_map(|line| line.split('>').nth(1)?.split('<').next()).collect()
}

/// Where zero lies.
fn zero(svg: &str) -> f64 {
    let lines = svg.lines().filter(|line| line.contains("stroke=\"#9aa5b1\""));
    let levels = lines.filter_map(|line| attribute(line, "y1"));
    let inside: Vec<f64> = levels.filter(|y| (PANEL[2]..=PANEL[3]).contains(y)).collect();
    assert_eq!(inside.len(), 1, "one line of zero in the panel");
    inside[0]
}

/// For each month a bar for each direction, as long as its heat; there is room for so many months, of which
/// the first have heat.
fn must_be_drawn(svg: &str, heats: &[[f64; 3]], rooms: usize) {
    let drawn = DIRECTIONS.map(|(_, colour)| bars(svg, colour));
    assert!(drawn.iter().all(|bars| bars.len() == heats.len()), "{drawn:?}");
    let months = (0..heats.len()).map(|month| [0, 1, 2].map(|direction| drawn[direction][month]));
    let months: Vec<[[f64; 4]; 3]> = months.collect();
    must_be_in_rooms(&months, rooms);
    let bars = months.into_iter().flatten().zip(heats.iter().flatten().copied());
    must_be_heats(zero(svg), &bars.collect::<Vec<_>>());
}

/// The bars of a month stand side by side in its room.
fn must_be_in_rooms(months: &[[[f64; 4]; 3]], rooms: usize) {
    let room = (PANEL[1] - PANEL[0]) / rooms as f64;
    for (month, [first, second, third]) in months.iter().enumerate() {
        let left = PANEL[0] + month as f64 * room;
        assert!(left < first[0] && first[1] < second[0], "{first:?} {second:?}");
        assert!(second[1] < third[0] && third[1] < left + room, "{second:?} {third:?}");
    }
}

/// Bars go up or down from zero, by one scale, and end inside the panel.
fn must_be_heats(zero: f64, bars: &[([f64; 4], f64)]) {
    let (most, heat) = bars.iter().max_by(|a, b| a.1.abs().total_cmp(&b.1.abs())).unwrap();
    let scale = (most[3] - most[2]) / heat.abs();
    assert!(most[3] - most[2] > 50.0, "the longest can be seen: {most:?}");
    for (bar, heat) in bars {
        let (from, to) = if *heat > 0.0 { (bar[3], bar[2]) } else { (bar[2], bar[3]) };
        assert!((from - zero).abs() < NEAR, "{bar:?} from {zero}");
        assert!((to - (zero - heat * scale)).abs() < 2.0 * NEAR, "{bar:?}, {heat} kWh");
        assert!(PANEL[2] - NEAR < bar[2] && bar[3] < PANEL[3] + NEAR, "{bar:?}");
    }
}

// ---- what is to be drawn ----

/// The report of a folder of the sample, the kWh of all its hours, and the drawing.
fn drawn(folder: &Folder) -> (Vec<[f64; 3]>, String) {
    let words = ["report", "t.book", "--csv", "x.csv", "--balance", "--svg", "x.svg"];
    folder.call(&words).done();
    let csv = folder.text("x.csv");
    let of = |name: &str| -> Vec<f64> {
        let cells = column(&csv, name).into_iter().zip(column(&csv, "delta_t_h"));
        let number = |cell: &str| cell.parse::<f64>().unwrap();
        cells.map(|(power, length)| number(power) * number(length) / 1000.0).collect()
    };
    let [a, b, c] = DIRECTIONS
        .map(|(name, _)| of(&format!("internal_boundary.fabric_int_air_convective_{name}")));
    let hours = (0..a.len()).map(|hour| [a[hour], b[hour], c[hour]]).collect();
    (hours, folder.text("x.svg"))
}

fn sum(hours: &[[f64; 3]]) -> [f64; 3] {
    [0, 1, 2].map(|direction| hours.iter().map(|hour| hour[direction]).sum())
}

/// The sums of the months, where an hour is a day.
fn by_month(days: &[[f64; 3]]) -> Vec<[f64; 3]> {
    let mut rest = days;
    let lengths = [31, 28, 31, 30, 31, 30, 31, 31, 30, 31, 30, 31];
    let months = lengths.map(|length| {
        let (month, later) = rest.split_at(rest.len().min(length));
        rest = later;
        sum(month)
    });
    months.into_iter().filter(|month| *month != [0.0; 3]).collect()
}

#[test]
fn each_month_has_a_bar_for_each_direction() {
    let folder = sample("drawn_year", 365, |_| 24.0);
    run(&folder, &[]);
    let (days, svg) = drawn(&folder);
    let months = by_month(&days);
    assert_eq!(months.len(), 12);
    must_be_drawn(&svg, &months, 12);
    assert_eq!(below(&svg, 20.0), MONTHS);
    assert!(svg.contains(">Convection into the inner surfaces, kWh a month</text>"));
    for ((name, colour), heat) in DIRECTIONS.iter().zip(sum(&days)) {
        let heat = format!("{heat:.1}").replace('-', "−");
        let key = format!(" fill=\"{colour}\">■</tspan><tspan dx=\"7\">{name}, {heat} kWh</tspan>");
        assert!(svg.contains(&key), "{key}");
    }
    let note = "horizontal: walls and windows   ·   upwards: air to ceilings, below 0 floors to air   ·   \
                downwards: air to floors, below 0 ceilings to air";
    assert_eq!(below(&svg, 38.0), [note]);
}

#[test]
fn months_that_are_not_held_are_empty() {
    let folder = sample("drawn_part", 100, |_| 24.0);
    run(&folder, &[]);
    let (days, svg) = drawn(&folder);
    let months = by_month(&days);
    assert_eq!(months.len(), 4);
    must_be_drawn(&svg, &months, 12);
    assert_eq!(below(&svg, 20.0), MONTHS);
}

#[test]
fn few_days_have_only_their_own_months() {
    let folder = sample("drawn_days", 40, |_| 24.0);
    run(&folder, &[]);
    let (days, svg) = drawn(&folder);
    must_be_drawn(&svg, &by_month(&days), 2);
    assert_eq!(below(&svg, 20.0), MONTHS[..2]);
    // One window, sixty hours: a bar that is no wider than those of a year are by much.
    let (folder, _) = with_year("drawn_hours", &varied(60, 1.0));
    folder.call(&["report", "p.book", "--svg", "x.svg"]).done();
    let svg = folder.text("x.svg");
    assert_eq!(below(&svg, 20.0), MONTHS[..1]);
    let [horizontal, upwards, downwards] = DIRECTIONS.map(|(_, colour)| bars(&svg, colour));
    assert_eq!((horizontal.len(), upwards.len(), downwards.len()), (1, 0, 0));
    assert!(horizontal[0][1] - horizontal[0][0] < 40.0);
    assert!(svg.contains(">upwards, 0.0 kWh</tspan>"));
}

#[test]
fn what_lies_past_the_year_is_a_mean() {
    let folder = sample("drawn_later", 500, |_| 24.0);
    run(&folder, &[]);
    let (days, svg) = drawn(&folder);
    let mut months = by_month(&days[..365]);
    months.push(sum(&days[365..]).map(|heat| heat / 135.0 * 31.0));
    must_be_drawn(&svg, &months, 13);
    assert_eq!(below(&svg, 20.0), [&MONTHS[..], &["later"]].concat());
    assert!(below(&svg, 38.0)[0].ends_with("   ·   later: mean of 31 days"));
    // A day past the year is told as it is.
    let folder = sample("drawn_leap", 366, |_| 24.0);
    run(&folder, &[]);
    let (days, svg) = drawn(&folder);
    let mut months = by_month(&days[..365]);
    months.push(days[365]);
    must_be_drawn(&svg, &months, 13);
    assert!(below(&svg, 38.0)[0].ends_with("ceilings to air"));
}

#[test]
fn bars_go_down_where_the_surface_warms_the_air() {
    let element = ElementHour { temp_ext: 60.0, ..element_hour_p() };
    let hour = Conditions { elements: vec![element], ..hour_p(15.0, 18.0) };
    let (folder, _) = with_year("drawn_down", &hour.to_bytes().repeat(48));
    let report = folder.call(&["report", "p.book", "--svg", "x.svg"]).done();
    let svg = folder.text("x.svg");
    let [horizontal] = bars(&svg, DIRECTIONS[0].1)[..] else { panic!("one bar") };
    assert!((horizontal[2] - zero(&svg)).abs() < NEAR && horizontal[3] > horizontal[2] + 50.0);
    let told = report.lines().find_map(|line| line.strip_prefix("Horizontal")).unwrap();
    let heat = told.split_whitespace().next().unwrap();
    assert!(heat.starts_with('-') && heat.len() > 3, "{heat}");
    let key = format!(">horizontal, {} kWh</tspan>", heat.replace('-', "−"));
    assert!(svg.contains(&key), "{key}");
    assert!(svg.contains(">−"), "ticks below zero");
}

#[test]
fn a_book_without_hours_has_an_empty_panel() {
    let folder = sample("drawn_none", 0, |_| 1.0);
    folder.call(&["report", "terrace.head", "--svg", "x.svg"]).done();
    let svg = folder.text("x.svg");
    assert!(DIRECTIONS.iter().all(|(_, colour)| bars(&svg, colour).is_empty()));
    assert!(svg.contains(">horizontal</tspan>") && svg.contains(">downwards</tspan>"));
    assert_eq!(below(&svg, 20.0), MONTHS[..1]);
    assert!(!svg.contains("NaN") && !svg.contains("inf"));
    zero(&svg);
}
