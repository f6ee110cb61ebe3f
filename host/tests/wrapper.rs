//! What the wrapper adds to the engine: records where bytes are taken, reasons by name, states of any
//! length, and no call in a floating-point environment that would give other values.
use hem_zone::samples::{hour_p, house_p};
use hem_zone::{
    convert, first_above, hours_within, nearest_hour, weather, weather_lines, Book, Reason,
    Refusal, State, Zone, ENTRY_VERSION_2,
};
use std::arch::asm;

fn zone() -> Zone {
    Zone::new(&house_p()).unwrap()
}

fn twenty() -> State {
    State::new(&[20.0; 3])
}

#[test]
fn a_record_is_taken_where_bytes_are() {
    let (head, hour) = (house_p(), hour_p(21.0, 24.0));
    let (head_bytes, hour_bytes) = (head.to_bytes(), hour.to_bytes());
    assert_eq!(Zone::from_head(&head), Zone::from_head(&head_bytes));
    assert_eq!(Zone::from_head(&head), Zone::from_head(&head_bytes[..]));

    let (z, s) = (zone(), twenty());
    assert_eq!(z.space_heat_cool_demand(&s, &hour), z.space_heat_cool_demand(&s, &hour_bytes));
    assert_eq!(z.why(&s, &hour), z.why(&s, &hour_bytes[..]));
    let version = ENTRY_VERSION_2;
    assert_eq!(z.hour_step(&s, &hour, version), z.hour_step(&s, &hour_bytes[..], version));
    assert_eq!(
        z.update_temperatures(&s, &hour, 144.0, 1.0, 0.0),
        z.update_temperatures(&s, &hour_bytes, 144.0, 1.0, 0.0)
    );

    let (mut by_name, mut by_bytes) = (Book::begin(&z).unwrap(), Book::begin(&head_bytes).unwrap());
    let first = by_name.append(&hour, version).unwrap().to_vec();
    assert_eq!(by_bytes.append(&&hour_bytes[..], version).unwrap(), first);
    assert_eq!(by_name.bytes(), by_bytes.bytes());
}

#[test]
fn a_refusal_has_its_reason_beside_its_number() {
    let crossed = zone().hour_step(&twenty(), &hour_p(22.0, 21.0), ENTRY_VERSION_2).unwrap_err();
    assert_eq!((crossed.reason(), crossed.number()), (Reason::CoolingBelowHeating, 10));
    let short = Zone::from_head(&[0; 3]).unwrap_err();
    assert_eq!((short.reason(), short.number()), (Reason::HeadShort, 1));
    assert_eq!(Reason::FalseEntry as u32, 18);
    assert_eq!(Reason::BookFull.to_string(), "a book holds at most 8,784 entries");
}

#[test]
fn a_state_of_any_length_can_be_held_and_is_refused() {
    for count in [0, 2, 4, 121, 122, 500] {
        let state = State::new(&vec![20.0; count]);
        assert_eq!(state.temps().len(), count.min(121));
        assert_eq!(state.temp_internal_air().is_nan(), count == 0 || count > 121, "{count}");
        let refusal = zone().hour_step(&state, &hour_p(21.0, 24.0), ENTRY_VERSION_2).unwrap_err();
        assert_eq!(refusal.reason(), Reason::StateInvalid);
        assert_eq!(
            zone().temp_operative(&state).unwrap_err().sentence(),
            format!("the state has {count} temperatures, the zone 3 nodes")
        );
    }
}

// ---- the floating-point environment ----

/// Every call of the wrapper that calls the engine, and whether it refused.
fn every_call(zone: &Zone, book: &Book) -> Vec<Option<Refusal>> {
    let hour = hour_p(21.0, 24.0);
    let epw = [&b"\n".repeat(8), &b",,,,,,20,,,,,,,,0,0"[..]].concat();
    vec![
        Zone::from_head(&house_p()).err(),
        zone.start_up().err(),
        zone.space_heat_cool_demand(&twenty(), &hour).err(),
        zone.why(&twenty(), &hour).err(),
        zone.update_temperatures(&twenty(), &hour, 0.0, 1.0, 0.0).err(),
        zone.hour_step(&twenty(), &hour, ENTRY_VERSION_2).err(),
        zone.temp_operative(&twenty()).err(),
        Book::begin(zone).err(),
        Book::take_up(book.bytes()).err(),
        book.clone().append(&hour, ENTRY_VERSION_2).err(),
        first_above(book.bytes(), 20.0).err(),
        hours_within(book.bytes(), 20.0, 21.0).err(),
        nearest_hour(book.bytes(), 20.0).err(),
        convert(book.bytes()).err(),
        weather(&epw, 1).err(),
        weather_lines(&epw).next().unwrap().err(),
    ]
}

/// Runs `work` with these bits of MXCSR set, in a thread of its own, whose environment dies with it.
#[inline(never)]
fn with_control<T: Send>(bits: u32, work: impl FnOnce() -> T + Send) -> T {
    let load = |control: u32| {
        // SAFETY: the instruction reads four bytes; the rounding and denormal bits are put back below.
        unsafe { asm!("ldmxcsr [{}]", in(reg) &control, options(nostack, preserves_flags)) }
    };
    std::thread::scope(|scope| {
        let thread = scope.spawn(|| {
            load(0x1F80 | bits);
            let done = work();
            load(0x1F80);
            done
        });
        thread.join().unwrap()
    })
}

#[test]
fn another_floating_point_environment_is_refused_by_every_call() {
    let zone = zone();
    let mut book = Book::begin(&zone).unwrap();
    book.append(&hour_p(21.0, 24.0), ENTRY_VERSION_2).unwrap();
    let denormal = "the calling thread takes denormal numbers for zero (FTZ or DAZ is on); \
                    the engine needs rounding to nearest with denormal numbers, and is not called";
    for (bits, start) in [
        (0x2000, "the calling thread rounds down; "),
        (0x4000, "the calling thread rounds up; "),
        (0x6000, "the calling thread rounds towards zero; "),
        (0x0040, denormal),
        (0x8000, denormal),
        (0xE040, "the calling thread rounds towards zero; "),
    ] {
        for (place, refusal) in
            with_control(bits, || every_call(&zone, &book)).into_iter().enumerate()
        {
            let refusal = refusal.unwrap_or_else(|| panic!("call {place} was made with {bits:x}"));
            assert_eq!((refusal.reason(), refusal.number()), (Reason::FloatEnvironment, 0));
            assert!(refusal.sentence().starts_with(start), "{refusal}");
            assert_eq!(refusal.to_string(), refusal.sentence());
        }
    }
    assert_eq!(with_control(0, || every_call(&zone, &book)), vec![None; 16]);
}

#[test]
fn masks_and_flags_are_no_hindrance() {
    let zone = zone();
    // The flags of earlier operations, all set, as any calculation leaves them.
    assert!(with_control(0x3F, || zone.start_up().is_ok()));
}
