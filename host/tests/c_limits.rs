//! Entry version 3 at the C interface: its limits, their place among the refusals, its bytes, and what a
//! rest of it is.
#[path = "common/lent.rs"]
mod lent;

use lent::*;

const WIDE: [f64; 2] = [1e7, 1e7];
/// What an entry of House P takes, by version.
const ENTRY: usize = 216;
const ENTRY_3: usize = 232;

/// Limits that no hour of version 3 may have.
const BAD: [[f64; 2]; 6] = [
    [f64::NAN, 0.0],
    [0.0, f64::NAN],
    [-1.0, 0.0],
    [0.0, -5e-324],
    [f64::INFINITY, 0.0],
    [0.0, 10_000_000.000000002],
];

fn warm() -> Vec<u8> {
    hour(21.0, 24.0)
}

fn begun(room: usize) -> Lent {
    let mut lent = Lent::new(room);
    assert_eq!(begin(&p(), &mut lent), 0);
    lent
}

#[test]
fn an_hour_step_delivers_the_limit_and_tells_the_demand_uncut() {
    for (limits, heat, cool, demand, gains) in [
        (WIDE, 21.0, 24.0, [0.144, 0.0], 144.0),
        ([144.0, 0.0], 21.0, 24.0, [0.144, 0.0], 144.0),
        ([100.0, 0.0], 21.0, 24.0, [0.144, 0.0], 100.0),
        ([0.0, 144.0], 15.0, 19.0, [0.0, -0.144], -144.0),
        ([0.0, 36.0], 15.0, 19.0, [0.0, -0.144], -36.0),
        ([0.0, 0.0], 15.0, 19.0, [0.0, -0.144], 0.0),
        ([-0.0, -0.0], 21.0, 24.0, [0.144, 0.0], 0.0),
    ] {
        let mut lent = Lent::at_twenty(0);
        assert_eq!(limited_step(&p(), &hour(heat, cool), 3, limits, &mut lent), 0);
        assert_eq!((&lent.out[..2], lent.balance[2]), (&demand[..], gains), "{limits:?}");
        // House P warms by a degree for 144 W.
        assert!((lent.temps[2] - 20.0 - gains / 144.0).abs() < 1e-12, "{limits:?}");
    }
}

#[test]
fn limits_out_of_range_are_19_between_9_and_10() {
    let spoiled = |at: usize| {
        let mut bytes = hour(22.0, 21.0);
        bytes[at..at + 8].copy_from_slice(&f64::NAN.to_be_bytes());
        bytes
    };
    let crossed = hour(22.0, 21.0);
    for limits in BAD {
        let asked =
            |cond: Vec<u8>| move |lent: &mut Lent| limited_step(&p(), &cond, 3, limits, lent);
        refused(Lent::new(0), 6, asked(warm()));
        refused(Lent::at_twenty(0), 7, asked(vec![]));
        refused(Lent::at_twenty(0), 9, asked(spoiled(0)));
        refused(Lent::at_twenty(0), 9 + 256, asked(spoiled(113)));
        refused(Lent::at_twenty(0), 19, asked(crossed.clone()));
        refused(Lent::at_twenty(0), 19, asked(warm()));
        // Versions 1 and 2 look at none of them, and an unknown one at nothing.
        for version in [1, 2] {
            let mut lent = Lent::at_twenty(0);
            assert_eq!(limited_step(&p(), &warm(), version, limits, &mut lent), 0);
            assert_eq!((lent.out[0], lent.temps[2]), (0.144, 21.0));
        }
        refused(Lent::at_twenty(0), 18, |lent| limited_step(&p(), &warm(), 4, limits, lent));
    }
    refused(Lent::at_twenty(0), 10, |lent| limited_step(&p(), &crossed, 3, [0.0; 2], lent));
}

#[test]
fn an_append_with_bad_limits_is_19_and_before_16() {
    for limits in BAD {
        for room in [180, 180 + ENTRY_3] {
            let asked =
                |cond: Vec<u8>| move |lent: &mut Lent| limited_append(&p(), &cond, 3, limits, lent);
            refused(begun(room), 19, asked(warm()));
            refused(begun(room), 19, asked(hour(22.0, 21.0)));
            refused(begun(room), 7, asked(vec![]));
        }
    }
    refused(begun(180), 10, |lent| limited_append(&p(), &hour(22.0, 21.0), 3, [0.0; 2], lent));
}

#[test]
fn an_entry_of_version_3_has_its_limits_behind_the_conditions() {
    let mut lent = begun(180 + ENTRY_3);
    assert_eq!(limited_append(&p(), &warm(), 3, [100.0, -0.0], &mut lent), 0);
    assert_eq!((lent.count, lent.used, lent.last_version), (1, 412, 3));
    let entry = &lent.buf[180..];
    assert_eq!(entry[..5], [0, 0, 0, 228, 3]);
    assert_eq!(entry[5..159], warm());
    let float = |at: usize| f64::from_be_bytes(entry[at..at + 8].try_into().unwrap());
    assert_eq!((float(159), float(167).to_bits()), (100.0, (-0.0_f64).to_bits()));
    assert_eq!([float(175), float(183), float(191)], [0.144, 0.0, 0.0]);
    assert_eq!(entry[199..208], [0; 9]);
    assert_eq!([float(208), float(216), float(224)], lent.temps[..3]);
}

#[test]
fn version_3_needs_16_bytes_more() {
    for (version, size) in [(1, ENTRY), (2, ENTRY), (3, ENTRY_3)] {
        refused(begun(180 + size - 1), 16, |lent| {
            limited_append(&p(), &warm(), version, WIDE, lent)
        });
        let mut lent = begun(180 + size);
        assert_eq!(limited_append(&p(), &warm(), version, WIDE, &mut lent), 0);
        assert_eq!(lent.used as usize, 180 + size);
    }
}

#[test]
fn version_3_follows_every_version_and_none_follows_it_but_3() {
    let held = |last_version| {
        let mut lent = Lent::at_twenty(1000);
        (lent.count, lent.used, lent.last_version) = (5, 180, last_version);
        lent
    };
    for last in 1..=3 {
        let mut lent = held(last);
        assert_eq!(limited_append(&p(), &warm(), 3, WIDE, &mut lent), 0);
        assert_eq!((lent.count, lent.used, lent.last_version), (6, 412, 3));
    }
    for version in [1, 2] {
        refused(held(3), 18 + 256 * 5, |lent| limited_append(&p(), &warm(), version, WIDE, lent));
    }
    refused(held(4), 18 + 256 * 5, |lent| limited_append(&p(), &warm(), 3, WIDE, lent));
}

/// A book of House P whose hours have these versions.
fn book(versions: &[u64]) -> Vec<u8> {
    let mut lent = begun(180 + ENTRY_3 * versions.len());
    for version in versions {
        assert_eq!(limited_append(&p(), &warm(), *version, [100.0; 2], &mut lent), 0);
    }
    lent.buf.truncate(lent.used as usize);
    lent.buf
}

#[test]
fn a_take_up_goes_by_the_version_bytes() {
    let whole = book(&[1, 2, 3, 3]);
    let starts = [180, 396, 612, 844, 1076];
    assert_eq!(whole.len(), 1076);
    for cut in 180..=whole.len() {
        let mut lent = Lent::new(0);
        assert_eq!(take_up(&whole[..cut], &mut lent), 0);
        let held = starts.iter().filter(|start| **start <= cut).count() - 1;
        assert_eq!((lent.count as usize, lent.used as usize), (held, starts[held]), "{cut} bytes");
        assert_eq!(lent.last_version, [1, 1, 2, 3, 3][held]);
    }
    // An hour of version 1 may be followed by one of version 3.
    let mut lent = Lent::new(0);
    assert_eq!(take_up(&book(&[1, 3]), &mut lent), 0);
    assert_eq!((lent.count, lent.used, lent.last_version), (2, 628, 3));
}

#[test]
fn an_unknown_version_behind_a_full_book_is_17() {
    let full = book(&[2; 8784]);
    let with = |rest: &[u8]| [&full[..], rest].concat();
    let mut lent = Lent::new(0);
    assert_eq!(take_up(&with(&[0, 0, 0, 212]), &mut lent), 0);
    assert_eq!((lent.count, lent.used as usize), (8784, full.len()));
    refused(Lent::new(0), 17, |lent| take_up(&with(&[0, 0, 0, 212, 9]), lent));
    // A part of a known one is dropped there too.
    assert_eq!(take_up(&with(&[0, 0, 0, 228, 3, 0]), &mut Lent::new(0)), 0);
    refused(Lent::new(0), 17, |lent| take_up(&with(&full[180..396]), lent));
}
