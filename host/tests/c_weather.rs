//! Weather of a line at the C interface: what is written, in which order fields are refused, that nothing is written
//! then, and files with any bytes beside the rules read in the plainest way.
#[path = "common/epw.rs"]
mod epw;
#[path = "common/generated.rs"]
mod generated;
#[path = "common/lent.rs"]
mod lent;

use epw::{bits, by_the_rules, file, line, one, sixteen};
use generated::Chance;
use lent::{weather, MARK};

/// The answer for a line is that of the rules. Where it is refused nothing is written.
#[track_caller]
fn must_follow_the_rules(file: &[u8], line: u64) -> u32 {
    let (answer, written) = weather(file, line);
    let shown = || format!("line {line} of {:?}", String::from_utf8_lossy(file));
    match by_the_rules(file, line) {
        Ok(values) => assert_eq!((answer, bits(written)), (0, values), "{}", shown()),
        Err(number) => {
            assert_eq!((answer, bits(written)), (number, bits([MARK; 3])), "{}", shown())
        }
    }
    answer
}

#[test]
fn three_floats_are_written_and_nothing_else() {
    let lines = [line("-3.5", "120.25", "61"), line("20", "-0", "2000"), line("100", "0.1", "0.3")];
    let file = file(lines.join("\r\n"));
    assert_eq!(weather(&file, 1), (0, [-3.5, 120.25, 61.0]));
    assert_eq!(weather(&file, 2), (0, [20.0, 0.0, 2000.0]));
    assert_eq!(bits(weather(&file, 2).1), bits([20.0, -0.0, 2000.0]));
    assert_eq!(weather(&file, 3), (0, [100.0, 0.1, 0.3]));
    for place in [0, 4, 5, u64::MAX] {
        assert_eq!(weather(&file, place), (21, [MARK; 3]), "line {place}");
    }
    assert_eq!(weather(&[], 1), (21, [MARK; 3]));
    assert_eq!(weather(&[], 0), (21, [MARK; 3]));
}

#[test]
fn the_bytes_may_stand_at_any_address() {
    let file = file(sixteen("12.5", "3", "4"));
    for offset in 0..16 {
        let mut held = vec![b'7'; offset];
        held.extend_from_slice(&file);
        // What stands behind the file is not looked at.
        held.extend_from_slice(b"9,9\n");
        assert_eq!(weather(&held[offset..offset + file.len()], 1), (0, [12.5, 3.0, 4.0]));
    }
}

// ---- the order of the refusals ----

/// Texts of a temperature and of a radiation with what they are answered by themselves.
const TEMPERATURES: [(&str, u32); 9] = [
    ("20.5", 0),
    ("-0", 0),
    ("", 22),
    ("x", 22),
    ("0000000000020", 22),
    ("99.90000000000", 22),
    ("99.9", 23),
    ("100.5", 22),
    ("9999", 22),
];
const RADIATIONS: [(&str, u32); 9] = [
    ("17", 0),
    ("99.9", 0),
    ("", 22),
    ("1e3", 22),
    ("0000000000017", 22),
    ("9999.000000000", 22),
    ("9999", 23),
    ("2000.5", 22),
    ("-1", 22),
];

#[test]
fn fields_are_refused_one_by_one_in_the_order_of_the_file() {
    let mut met = [0; 24];
    for (dry_bulb, first) in TEMPERATURES {
        for (direct_normal, second) in RADIATIONS {
            for (diffuse_horizontal, third) in RADIATIONS {
                let answer = [first, second, third].into_iter().find(|n| *n != 0).unwrap_or(0);
                let file = one(dry_bulb, direct_normal, diffuse_horizontal);
                assert_eq!(must_follow_the_rules(&file, 1), answer);
                met[answer as usize] += 1;
                // 21 comes before all of them.
                let short = sixteen(dry_bulb, direct_normal, diffuse_horizontal);
                let short = short.rsplit_once(',').unwrap().0;
                assert_eq!(weather(&epw::file(short), 1), (21, [MARK; 3]));
                assert_eq!(weather(&file, 2), (21, [MARK; 3]));
                assert_eq!(weather(&file, 0), (21, [MARK; 3]));
            }
        }
    }
    assert_eq!((met[0], met[22] + met[23]), (8, 721));
}

// ---- any bytes ----

/// A number of an EPW file, mostly a good one.
fn text(chance: &mut Chance) -> String {
    let sign = chance.one_of(&["", "", "", "-"]);
    let (whole, behind, width) = (chance.below(120), chance.below(1000), chance.below(14) as usize);
    match chance.below(12) {
        0 => chance.one_of(&["99.9", "9999", "099.90", "9999.0", "", "-0", "100", "2000"]).into(),
        1 => format!("{sign}{:0width$}", behind * whole),
        2 => format!("{sign}{whole}.{behind:0width$}"),
        3 => format!("{sign}{whole}"),
        _ => format!("{whole}.{behind}"),
    }
}

fn good_file(chance: &mut Chance) -> Vec<u8> {
    let end = chance.one_of(&["\n", "\r\n"]);
    let lines: Vec<String> = (0..3)
        .map(|_| {
            let (a, b, c) = (text(chance), text(chance), text(chance));
            if chance.below(2) == 0 {
                sixteen(&a, &b, &c)
            } else {
                line(&a, &b, &c)
            }
        })
        .collect();
    let headers = end.repeat(8);
    format!("{headers}{}{}", lines.join(end), chance.one_of(&["", end, "\r"])).into_bytes()
}

/// Bytes that the rules speak of, and some beside them.
const BYTES: &[u8] = b"0123456789999....---,,,\r\r\n\n\n+eE \"/:x\0\xFF\x80";

/// Bytes are changed, taken out, put in, or cut off, mostly behind the headers.
fn damage(bytes: &mut Vec<u8>, chance: &mut Chance) {
    let least = chance.one_of(&[0, 8.min(bytes.len() as u64)]);
    let at = (least + chance.below(bytes.len() as u64 - least + 1)) as usize;
    match chance.below(5) {
        0 if at < bytes.len() => bytes[at] = chance.one_of(BYTES),
        1 if at < bytes.len() => drop(bytes.remove(at)),
        2 => bytes.truncate(at),
        _ => bytes.insert(at, chance.one_of(BYTES)),
    }
}

#[test]
fn damaged_files_are_answered_by_the_rules() {
    let (mut chance, mut met) = (Chance(84), [0; 24]);
    for _ in 0..20_000 {
        let mut bytes = good_file(&mut chance);
        for _ in 0..chance.below(4) {
            damage(&mut bytes, &mut chance);
        }
        for line in 0..6 {
            met[must_follow_the_rules(&bytes, line) as usize] += 1;
        }
    }
    assert!([0, 21, 22, 23].iter().all(|number| met[*number] > 1000), "{met:?}");
}

#[test]
fn files_of_chance_are_answered_by_the_rules() {
    let (mut chance, mut met) = (Chance(92), [0; 24]);
    for _ in 0..20_000 {
        let mut some = |all: &'static [u8], most: u64| {
            let length = chance.below(most);
            (0..length).map(|_| chance.one_of(all) as char).collect::<String>()
        };
        let [a, b, c] = [0; 3].map(|_| some(b"000123456789999.-", 5));
        let (rest, end) = (some(b"7,\r\n", 4), some(b"9.,\r\n", 5));
        let line = format!(",,,,,,{a},,{rest},,,,,,{b},{c}{end}");
        let bytes = format!("{}{line}{line}", "\n".repeat(8)).into_bytes();
        for line in [1, 2, 3] {
            met[must_follow_the_rules(&bytes, line) as usize] += 1;
        }
    }
    assert!([0, 21, 22].iter().all(|number| met[*number] > 500), "{met:?}");
}

// ---- one line by itself ----

#[test]
fn a_line_behind_eight_empty_ones_is_answered_as_in_its_file() {
    let (mut chance, mut met) = (Chance(91), [0; 24]);
    for _ in 0..5_000 {
        let mut bytes = good_file(&mut chance);
        damage(&mut bytes, &mut chance);
        for (place, line) in bytes.split_inclusive(|byte| *byte == b'\n').skip(8).enumerate() {
            let alone = [&[b'\n'; 8], line].concat();
            let (answer, written) = weather(&alone, 1);
            let (whole, in_file) = weather(&bytes, place as u64 + 1);
            assert_eq!((answer, bits(written)), (whole, bits(in_file)), "{place} {bytes:?}");
            met[answer as usize] += 1;
        }
    }
    assert!([0, 21, 22, 23].iter().all(|number| met[*number] > 100), "{met:?}");
}
