//! The year as a drawing: daily demand, daily temperatures, how long each load lasts, and convection by month.
use crate::calendar::{day_name, months, Moment};
use crate::chart::{Anchor, Axis, Canvas, Frame, FAINT_INK};
use crate::convection_panel::convection;
use crate::days::{self, Days, COMMON_YEAR, DAYS_NAMED};
use crate::figures::HourFigures;
use crate::load::{self, Load};
use crate::panel::{bar, names_below, number_below, panel, words_below, Place, LEFT, WIDTH};
use crate::plant::Side;
use crate::plant_text;
use crate::print::{Print, PROGRAM};
use crate::report::delivered;
use crate::sums::{falling, Spread, Sums};
use crate::version::held_by_version;
use crate::warmth;

const HEIGHT: f64 = 1606.0;
const DEMAND: Place = Place { top: 158.0, height: 280.0 };
const TEMPERATURE: Place = Place { top: 532.0, height: 280.0 };
const LOADS: Place = Place { top: 906.0, height: 280.0 };
const CONVECTION: Place = Place { top: 1280.0, height: 180.0 };

const HEATING: &str = "#d9593d";
const COOLING: &str = "#2b7bba";
const OUTSIDE: &str = "#8796a5";
const INSIDE: &str = "#2f855a";

pub fn draw(print: &Print) -> String {
    let mut canvas = Canvas::default();
    let (days, shown) = (Days::of(&print.hours), days::shown(&print.hours) as f64);
    title(&mut canvas, print);
    demand(&mut canvas, &days, shown);
    temperature(&mut canvas, print, &days, shown);
    load_duration(&mut canvas, &print.hours);
    convection(&mut canvas, print, CONVECTION);
    footer(&mut canvas, print);
    canvas.finish(WIDTH, HEIGHT, &heading(print))
}

fn heading(print: &Print) -> String {
    format!("{}: heating and cooling", print.name)
}

fn title(canvas: &mut Canvas, print: &Print) {
    canvas.heading((LEFT, 48.0), 26, &heading(print));
    let words = format!(
        "floor area {} m²   ·   {}   ·   heating {}   ·   cooling {}",
        print.area(),
        print.length(),
        delivered(print, &load::HEATING, 0),
        delivered(print, &load::COOLING, 0),
    );
    canvas.text((LEFT, 74.0), Anchor::Start, 15, FAINT_INK, &words);
    let entries = format!("entries: {}", held_by_version(print.book));
    canvas.text((LEFT, 96.0), Anchor::Start, 15, FAINT_INK, &entries);
    if let Some(limits) = plant_text::in_short(&print.hours) {
        canvas.text((LEFT, 118.0), Anchor::Start, 15, FAINT_INK, &limits);
    }
}

/// Which program drew it, and of what.
fn footer(canvas: &mut Canvas, print: &Print) {
    let mut y = HEIGHT - 62.0;
    canvas.text((LEFT, y), Anchor::Start, 11, FAINT_INK, &format!("Drawn by {PROGRAM}"));
    for (name, digits) in print.fingerprints.named() {
        y += 15.0;
        let words = format!("SHA-256 of {name}: {digits}");
        canvas.text((LEFT, y), Anchor::Start, 11, FAINT_INK, &words);
    }
}

// ---- the days ----

/// How many days each step of a panel stands for, where it is not one.
fn means_of(days: &Days) -> String {
    match days.together {
        1 => String::new(),
        together => format!(" (means of {together} days)"),
    }
}

/// Heating upwards and cooling downwards, a step for each day, or for some days with their mean.
fn demand(canvas: &mut Canvas, days: &Days, shown: f64) {
    let steps: Vec<_> = days.held().map(|(first, d)| (first, days.a_day(d))).collect();
    let most = |values: &mut dyn Iterator<Item = f64>| values.fold(0.0, f64::max);
    let highest = most(&mut steps.iter().map(|(_, d)| d.heating));
    let lowest = most(&mut steps.iter().map(|(_, d)| d.cooling));
    let y = Axis::covering(-lowest, highest.max(1.0), 6.0);
    let keys = [(HEATING, "heating"), (COOLING, "cooling")];
    let heading = format!("Demand, kWh a day{}", means_of(days));
    let frame = panel(canvas, &heading, &keys, DEMAND, (0.0, shown), y);
    time_axis(canvas, &frame);
    frame.draw_y(canvas, |axis, tick| axis.label(tick.abs()));
    for (first, d) in steps {
        let across = (first, first + days.together as f64);
        bar(canvas, &frame, across, d.heating, HEATING);
        bar(canvas, &frame, across, -d.cooling, COOLING);
    }
}

/// For outside and operative temperature the mean of each day, on the band from its lowest to its
/// highest hour.
fn temperature(canvas: &mut Canvas, print: &Print, days: &Days, shown: f64) {
    let spreads = || days.held().flat_map(|(_, d)| [&d.external, &d.operative]);
    let low = spreads().map(|s| s.low).fold(f64::INFINITY, f64::min);
    let high = spreads().map(|s| s.high).fold(f64::NEG_INFINITY, f64::max);
    let y = match low <= high {
        true => Axis::covering(low, high, 8.0),
        false => Axis::covering(0.0, 30.0, 8.0),
    };
    let inside = match print.hours.is_empty() {
        true => "operative".into(),
        false => format!("operative, {}", warmth::in_short(&print.sums)),
    };
    let keys = [(INSIDE, inside.as_str()), (OUTSIDE, "outside")];
    let heading = match days.together {
        1 => "Temperature, °C: mean, lowest and highest hour of each day".into(),
        together => format!("Temperature, °C: mean, lowest and highest hour of {together} days"),
    };
    let frame = panel(canvas, &heading, &keys, TEMPERATURE, (0.0, shown), y);
    time_axis(canvas, &frame);
    frame.draw_y(canvas, Axis::label);
    band(canvas, &frame, days, |d| &d.external, OUTSIDE);
    band(canvas, &frame, days, |d| &d.operative, INSIDE);
}

fn band(canvas: &mut Canvas, frame: &Frame, days: &Days, of: fn(&Sums) -> &Spread, colour: &str) {
    let mut area = through_days(frame, days, |d| of(d).high);
    area.extend(through_days(frame, days, |d| of(d).low).into_iter().rev());
    canvas.area(&area, colour, 0.28);
    canvas.curve(&through_days(frame, days, |d| of(d).mean()), colour, 1.8);
}

/// Points in the middle of each day, and at the outer ends of the first and the last.
fn through_days(frame: &Frame, days: &Days, of: impl Fn(&Sums) -> f64) -> Vec<(f64, f64)> {
    let half = days.together as f64 / 2.0;
    let mut points: Vec<_> = days.held().map(|(first, d)| (first + half, of(d))).collect();
    if let (Some(first), Some(last)) = (points.first().copied(), points.last().copied()) {
        points.insert(0, (first.0 - half, first.1));
        points.push(((last.0 + half).min(frame.x.1), last.1));
    }
    points.into_iter().map(|(x, y)| frame.at(x, y)).collect()
}

/// Months below a year; dates where the days are few, and numbers of days where they are more than a
/// year has.
fn time_axis(canvas: &mut Canvas, frame: &Frame) {
    let shown = frame.x.1 as usize;
    if shown == COMMON_YEAR || shown == COMMON_YEAR + 1 {
        let parts = months().map(|(name, first, end)| (name, first.into(), end.into()));
        return names_below(canvas, frame, parts);
    }
    let days = Axis::covering(0.0, frame.x.1, 12.0);
    for tick in days.ticks().filter(|t| t.fract() == 0.0 && *t <= frame.x.1) {
        let words = match shown <= DAYS_NAMED {
            true => day_name(tick as u64),
            false => format!("{tick:.0}"),
        };
        number_below(canvas, frame, tick, &words);
    }
    if shown > DAYS_NAMED {
        words_below(canvas, frame, "days since the beginning");
    }
}

// ---- the loads ----

/// The powers of the hours from the greatest down, each as long as its hour: how many hours a year
/// the load is at or above a value.
fn load_duration(canvas: &mut Canvas, hours: &[HourFigures]) {
    let heating = falling(hours, HourFigures::heating_power);
    let cooling = falling(hours, HourFigures::cooling_power);
    let length = |steps: &[(f64, f64)]| steps.iter().map(|s| s.1).sum::<f64>();
    let highest = |steps: &[(f64, f64)]| steps.first().map_or(0.0, |s| s.0);
    let longest = length(&heating).max(length(&cooling));
    let span = Axis::covering(0.0, if longest > 0.0 { longest } else { 1.0 }, 10.0);
    let y = Axis::covering(0.0, highest(&heating).max(highest(&cooling)).max(0.1), 6.0);
    let named = [
        with_highest("heating", hours, HourFigures::heating_power),
        with_highest("cooling", hours, HourFigures::cooling_power),
    ];
    let keys = [(HEATING, named[0].as_str()), (COOLING, named[1].as_str())];
    let frame = panel(canvas, "Load duration, kW", &keys, LOADS, (0.0, span.high), y);
    for tick in span.ticks() {
        number_below(canvas, &frame, tick, &span.label(tick));
    }
    frame.draw_y(canvas, Axis::label);
    steps(canvas, &frame, &heating, HEATING);
    steps(canvas, &frame, &cooling, COOLING);
    limit(canvas, &frame, hours, (&load::HEATING, HEATING), 0.0);
    limit(canvas, &frame, hours, (&load::COOLING, COOLING), 200.0);
    words_below(canvas, &frame, "hours in which the load is at least as high");
}

/// A line at the limit of a plant, where one held that is the same in all hours in which it did: so it is
/// below the highest load. Its words end so far from the right, above it in the lower half, else below.
fn limit(
    canvas: &mut Canvas,
    frame: &Frame,
    hours: &[HourFigures],
    (load, colour): (&Load, &str),
    from_right: f64,
) {
    let Some(limit) = Side::of(hours, load).and_then(|side| side.one_limit()) else { return };
    let y = frame.py(limit / 1000.0);
    canvas.line((frame.left, y), (frame.right(), y), colour);
    let words = format!("{} limit {:.2} kW", load.name, limit / 1000.0);
    let beside = if y > frame.top + frame.height / 2.0 { -6.0 } else { 16.0 };
    canvas.text((frame.right() - from_right, y + beside), Anchor::End, 13, colour, &words);
}

/// The name of a load, with its highest hour where there is one.
fn with_highest(name: &str, hours: &[HourFigures], power: fn(&HourFigures) -> f64) -> String {
    let highest = hours.iter().rev().max_by(|a, b| power(a).total_cmp(&power(b)));
    match highest.filter(|hour| power(hour) > 0.0) {
        Some(hour) => {
            format!("{name}, highest {:.2} kW on {}", power(hour), Moment(hour.start).date().trim())
        }
        None => name.to_string(),
    }
}

fn steps(canvas: &mut Canvas, frame: &Frame, steps: &[(f64, f64)], colour: &str) {
    if steps.is_empty() {
        return;
    }
    let mut curve = vec![];
    let mut passed = 0.0;
    for (power, length) in steps {
        curve.push(frame.at(passed, *power));
        passed += length;
        curve.push(frame.at(passed, *power));
    }
    curve.push(frame.at(passed, 0.0));
    let mut area = curve.clone();
    area.push(frame.at(0.0, 0.0));
    canvas.area(&area, colour, 0.22);
    canvas.curve(&curve, colour, 2.0);
}
