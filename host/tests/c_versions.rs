//! Entry versions at the C interface: which are taken, where 18 stands among the refusals, and what becomes
//! of `last_version`. What version 3 adds is in c_limits.rs.
#[path = "common/lent.rs"]
mod lent;

use hem_zone::samples::house_p;
use lent::*;

/// Numbers that no hour has, though the low byte of some is 1, 2 or 3.
const UNKNOWN: [u64; 8] = [0, 4, 5, 257, 258, 259, 1 << 32 | 1, u64::MAX];

fn warm() -> Vec<u8> {
    hour(21.0, 24.0)
}

/// The answer for an entry of this index.
fn false_entry(index: u32) -> u32 {
    18 + 256 * index
}

/// A head with an area that is refused with 5, and one with a kind that is refused with 4.
fn bad_heads() -> [(u32, Vec<u8>); 2] {
    let (mut area, mut kind) = (house_p(), p());
    area.elements[0].area = 0.0;
    kind[57] = 6;
    [(5 + 256, area.to_bytes()), (4 + 256, kind)]
}

/// A book of this state: so many entries held, the last of this version, and room for more.
fn held(count: u64, last_version: u64) -> Lent {
    let mut lent = Lent::at_twenty(1000);
    (lent.count, lent.used, lent.last_version) = (count, 180, last_version);
    lent
}

#[test]
fn an_hour_step_takes_1_and_2_and_no_unknown_number() {
    for version in [1, 2] {
        let mut lent = Lent::at_twenty(0);
        assert_eq!(hour_step(&p(), &warm(), version, &mut lent), 0);
        assert_eq!((lent.out[0], lent.temps[2]), (0.144, 21.0));
    }
    for version in UNKNOWN {
        refused(Lent::at_twenty(0), 18, |lent| hour_step(&p(), &warm(), version, lent));
    }
}

#[test]
fn at_an_hour_step_18_stands_behind_the_zone_and_before_the_state() {
    for version in UNKNOWN {
        for (answer, head) in bad_heads() {
            refused(Lent::at_twenty(0), answer, |lent| hour_step(&head, &warm(), version, lent));
        }
        refused(Lent::at_twenty(0), 1, |lent| hour_step(&p()[..100], &warm(), version, lent));
        // A wrong state, no conditions, crossed setpoints: the version is tested before them.
        refused(Lent::new(0), 18, |lent| hour_step(&p(), &warm(), version, lent));
        refused(Lent::at_twenty(0), 18, |lent| hour_step(&p(), &[], version, lent));
        refused(Lent::at_twenty(0), 18, |lent| hour_step(&p(), &hour(22.0, 21.0), version, lent));
    }
    for version in [1, 2] {
        refused(Lent::new(0), 6, |lent| hour_step(&p(), &[], version, lent));
        refused(Lent::at_twenty(0), 7, |lent| hour_step(&p(), &[], version, lent));
        refused(Lent::at_twenty(0), 10, |lent| hour_step(&p(), &hour(22.0, 21.0), version, lent));
    }
}

#[test]
fn an_append_names_no_unknown_version_and_nothing_below_the_last() {
    for (last, version) in [(1, 1), (1, 2), (2, 2), (0, 1)] {
        let mut lent = held(5, last);
        assert_eq!(append(&p(), &warm(), version, &mut lent), 0);
        assert_eq!((lent.count, lent.used, lent.last_version), (6, 396, version));
        assert_eq!(lent.buf[180..185], [0, 0, 0, 212, version as u8]);
    }
    for version in UNKNOWN {
        for count in [0, 1, 8783] {
            refused(held(count, 1), false_entry(count as u32), |lent| {
                append(&p(), &warm(), version, lent)
            });
        }
    }
    // The version given as the last is compared as a number and not tested.
    for (last, version) in [(2, 1), (3, 2), (257, 2), (u64::MAX, 1), (u64::MAX, 2)] {
        refused(held(5, last), false_entry(5), |lent| append(&p(), &warm(), version, lent));
    }
}

#[test]
fn at_an_append_18_stands_behind_17_and_before_the_state() {
    for (last, version) in [(1, 0), (1, 257), (2, 1)] {
        let offered = |cond: Vec<u8>| move |lent: &mut Lent| append(&p(), &cond, version, lent);
        for (answer, head) in bad_heads() {
            refused(held(8784, last), answer, |lent| append(&head, &warm(), version, lent));
        }
        refused(held(8784, last), 17, offered(warm()));
        refused(held(8784, last), 17, offered(vec![]));
        let mut wrong = held(7, last);
        wrong.nodes = 4;
        refused(wrong, false_entry(7), offered(warm()));
        refused(held(7, last), false_entry(7), offered(vec![]));
        refused(held(7, last), false_entry(7), offered(hour(22.0, 21.0)));
        let mut narrow = held(7, last);
        narrow.buf.truncate(395);
        refused(narrow, false_entry(7), offered(warm()));
    }
    let mut narrow = held(7, 1);
    narrow.buf.truncate(395);
    refused(narrow, 16, |lent| append(&p(), &warm(), 1, lent));
}

/// A book of House P whose hours have these versions.
fn book(versions: &[u64]) -> Lent {
    let mut lent = Lent::new(180 + 216 * versions.len());
    assert_eq!(begin(&p(), &mut lent), 0);
    for version in versions {
        assert_eq!(append(&p(), &warm(), *version, &mut lent), 0);
    }
    lent
}

#[test]
fn a_take_up_hands_back_the_version_of_the_last_entry_held() {
    let whole = book(&[1, 1, 2, 2]);
    assert_eq!(whole.last_version, 2);
    for cut in 180..=whole.buf.len() {
        let mut lent = Lent::new(0);
        assert_eq!(take_up(&whole.buf[..cut], &mut lent), 0);
        let expected = [1, 1, 1, 2, 2][(cut - 180) / 216];
        assert_eq!(lent.last_version, expected, "{cut} bytes");
    }
    // Cut back to version 1, the book takes version 1 again.
    let mut cut = book(&[1, 2]);
    assert_eq!(take_up(&cut.buf.clone()[..180 + 216 + 100], &mut cut), 0);
    assert_eq!((cut.count, cut.used, cut.last_version), (1, 396, 1));
    assert_eq!(append(&p(), &warm(), 1, &mut cut), 0);
    assert!(cut.buf == book(&[1, 1]).buf);
}

#[test]
fn a_begun_book_has_version_1_and_a_refused_call_leaves_what_was_given() {
    assert_eq!(book(&[]).last_version, 1);
    refused(Lent::new(179), 16, |lent| begin(&p(), lent));
    refused(Lent::new(0), 1, |lent| take_up(&p()[..179], lent));
    refused(held(3, 1), 10, |lent| append(&p(), &hour(22.0, 21.0), 2, lent));
}

#[test]
fn a_book_whose_versions_fall_is_refused_at_the_later_entry() {
    for (versions, place) in
        [(&[2, 1, 1][..], 1), (&[1, 2, 1], 2), (&[2, 2, 1], 2), (&[2, 1, 2], 1)]
    {
        // Heated hours are the same bytes in both versions but for the version.
        let mut bytes = book(&[1; 3]).buf;
        for (i, version) in versions.iter().enumerate() {
            bytes[180 + 216 * i + 4] = *version;
        }
        refused(Lent::new(0), false_entry(place), |lent| take_up(&bytes, lent));
        // Where they do not fall, they are true.
        for i in place as usize..3 {
            bytes[180 + 216 * i + 4] = 2;
        }
        let mut lent = Lent::new(0);
        assert_eq!(take_up(&bytes, &mut lent), 0);
        assert_eq!((lent.count, lent.last_version), (3, 2));
    }
}

#[test]
fn an_unknown_version_byte_makes_any_rest_a_false_entry() {
    for byte in (0..=255).filter(|byte| !(1..=3).contains(byte)) {
        let mut bytes = book(&[1, 1]).buf;
        let second = 180 + 216;
        bytes[second + 4] = byte;
        // Any rest that reaches its version byte is one, whatever its length.
        for rest in [5, 6, 215, 216] {
            refused(Lent::new(0), false_entry(1), |lent| take_up(&bytes[..second + rest], lent));
        }
        let mut lent = Lent::new(0);
        assert_eq!(take_up(&bytes[..second + 4], &mut lent), 0);
        assert_eq!((lent.count, lent.used, lent.last_version), (1, 396, 1));
    }
}
