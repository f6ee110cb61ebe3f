//! The functions of include/hem_zone.h, called as C calls them: once accepted, once refused. Its questions
//! about a book are asked in c_questions.rs, why an hour has its rate in c_why.rs, the weather in c_weather.rs; the
//! converter and the fixed rate are in c_convert.rs.
#[path = "common/lent.rs"]
mod lent;

use hem_zone::ffi::*;
use hem_zone::samples::house_p;
use hem_zone::ENTRY_VERSION_2;
use lent::*;

#[test]
fn head() {
    let p = p();
    assert_eq!(unsafe { hem_head(p.as_ptr(), p.len()) }, 0);
    assert_eq!(unsafe { hem_head(p.as_ptr(), 3) }, 1);
    let longer = [&p[..], &[9; 40]].concat();
    assert_eq!(unsafe { hem_head(longer.as_ptr(), longer.len()) }, 0);
}

#[test]
fn start_up_of_house_p() {
    let mut lent = Lent::new(0);
    assert_eq!(start_up(&p(), &mut lent), 0);
    assert_eq!((lent.nodes, &lent.temps[..3]), (3, &[20.0, 20.0, 20.0][..]));
    let mut bad = house_p();
    bad.elements[0].pitch = 181.0;
    refused(Lent::new(0), 5 + 256, |lent| start_up(&bad.to_bytes(), lent));
}

#[test]
fn demand_of_house_p() {
    let mut lent = Lent::at_twenty(0);
    assert_eq!(demand(&p(), &hour(21.0, 24.0), &mut lent), 0);
    assert_eq!(lent.out, [0.144, 0.0, 0.0, 0.0, 0.0]);
    assert_eq!(lent.temps[..3], [20.0; 3]);
    refused(Lent::at_twenty(0), 10, |lent| demand(&p(), &hour(22.0, 21.0), lent));
}

#[test]
fn update_of_house_p() {
    let mut lent = Lent::at_twenty(0);
    assert_eq!(update(&p(), &hour(20.0, 24.0), [144.0, 1.0, 0.0], &mut lent), 0);
    assert_eq!((lent.nodes, lent.temps[2]), (3, 21.0));
    assert!(lent.balance.iter().all(|v| *v != MARK));
    assert_eq!(lent.balance[2], 144.0);
    // The convective heat to the one upright surface, as a whole and by direction.
    let heat = 2.5 * (21.0 - lent.temps[1]);
    assert_eq!(lent.balance[7], heat);
    assert_eq!(lent.balance[11..14], [heat, 0.0, 0.0]);
    refused(Lent::at_twenty(0), 9, |lent| update(&p(), &hour(20.0, 24.0), [0.0, 1.5, 0.0], lent));
}

#[test]
fn hour_step_of_house_p() {
    let mut lent = Lent::at_twenty(0);
    assert_eq!(hour_step(&p(), &hour(21.0, 24.0), ENTRY_VERSION_2, &mut lent), 0);
    assert_eq!(lent.out[0], 0.144);
    assert_eq!(lent.temps[2], 21.0);
    assert!(lent.balance.iter().all(|v| *v != MARK));
    let mut wrong = Lent::at_twenty(0);
    wrong.nodes = 4;
    refused(wrong, 6, |lent| hour_step(&p(), &hour(21.0, 24.0), ENTRY_VERSION_2, lent));
}

#[test]
fn operative_of_house_p() {
    let mut lent = Lent::at_twenty(0);
    lent.temps[..3].copy_from_slice(&[50.0, 10.0, 31.0]);
    assert_eq!(operative(&p(), &mut lent), 0);
    assert_eq!(lent.out, [20.5, MARK, MARK, MARK, MARK]);
    assert_eq!(lent.temps[..3], [50.0, 10.0, 31.0]);
    refused(Lent::at_twenty(0), 1, |lent| operative(&p()[..179], lent));
    let mut bad = house_p();
    bad.elements[0].area = 0.0;
    refused(Lent::at_twenty(0), 5 + 256, |lent| operative(&bad.to_bytes(), lent));
    let mut wrong = Lent::at_twenty(0);
    wrong.nodes = 4;
    refused(wrong, 6, |lent| operative(&p(), lent));
    let mut hot = Lent::at_twenty(0);
    hot.temps[1] = 1.1e6;
    refused(hot, 6, |lent| operative(&p(), lent));
}

#[test]
fn begin_writes_the_head_and_no_more() {
    let mut lent = Lent::new(200);
    assert_eq!(begin(&p(), &mut lent), 0);
    assert_eq!((lent.nodes, lent.count, lent.used, lent.last_version), (3, 0, 180, 1));
    assert_eq!(&lent.buf[..180], p());
    assert_eq!(lent.buf[180..], [0xA5; 20]);
    assert_eq!(begin(&p(), &mut Lent::new(180)), 0);
    refused(Lent::new(179), 16, |lent| begin(&p(), lent));
}

#[test]
fn append_writes_one_entry() {
    let mut lent = Lent::new(400);
    assert_eq!(begin(&p(), &mut lent), 0);
    assert_eq!(append(&p(), &hour(21.0, 24.0), ENTRY_VERSION_2, &mut lent), 0);
    assert_eq!((lent.nodes, lent.count, lent.used, lent.temps[2]), (3, 1, 396, 21.0));
    assert_eq!(lent.last_version, ENTRY_VERSION_2);
    assert_eq!(lent.buf[180..185], [0, 0, 0, 212, 2]);
    assert_eq!(lent.buf[185..339], hour(21.0, 24.0));
    assert_eq!(lent.buf[396..], [0xA5; 4]);
    refused(lent, 16, |lent| append(&p(), &hour(21.0, 24.0), ENTRY_VERSION_2, lent));
}

#[test]
fn append_needs_room_and_takes_all_of_it() {
    for (room, answer) in [(395, 16), (396, 0)] {
        let mut lent = Lent::new(room);
        assert_eq!(begin(&p(), &mut lent), 0);
        assert_eq!(append(&p(), &hour(21.0, 24.0), ENTRY_VERSION_2, &mut lent), answer);
    }
    // A used length beyond the buffer, up to the greatest: refused, and no address overflows.
    for used in [201, u64::MAX - 10, u64::MAX] {
        let mut lent = Lent::at_twenty(200);
        (lent.count, lent.used, lent.last_version) = (0, used, 1);
        refused(lent, 16, |lent| append(&p(), &hour(21.0, 24.0), ENTRY_VERSION_2, lent));
    }
}

#[test]
fn append_counts_to_8784() {
    let full = |count, used| {
        let mut lent = Lent::at_twenty(1000);
        (lent.count, lent.used, lent.last_version) = (count, used, 1);
        lent
    };
    let mut last = full(8783, 180);
    assert_eq!(append(&p(), &hour(21.0, 24.0), ENTRY_VERSION_2, &mut last), 0);
    assert_eq!(last.count, 8784);
    refused(full(8784, 180), 17, |lent| append(&p(), &hour(21.0, 24.0), ENTRY_VERSION_2, lent));
    // 17 comes before the hour's own refusals.
    refused(full(u64::MAX, 180), 17, |lent| append(&p(), &hour(22.0, 21.0), ENTRY_VERSION_2, lent));
}

#[test]
fn take_up_of_a_book() {
    let mut book = Lent::new(396);
    assert_eq!(begin(&p(), &mut book), 0);
    assert_eq!(append(&p(), &hour(21.0, 24.0), ENTRY_VERSION_2, &mut book), 0);
    for (cut, count, used, air) in [(180, 0, 180, 20.0), (395, 0, 180, 20.0), (396, 1, 396, 21.0)] {
        let mut lent = Lent::new(0);
        assert_eq!(take_up(&book.buf[..cut], &mut lent), 0);
        assert_eq!((lent.nodes, lent.count, lent.used, lent.temps[2]), (3, count, used, air));
    }
    let mut changed = book.buf.clone();
    changed[340] ^= 1;
    refused(Lent::new(0), 18, |lent| take_up(&changed, lent));
    refused(Lent::new(0), 1, |lent| take_up(&book.buf[..179], lent));
}
