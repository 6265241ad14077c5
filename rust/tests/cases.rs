//! Cases of documents 01 and 02, through the wrapper: that it asks for what it says, and hands every answer on as it came.
use berduzhika::{Access, Controller, Event, Frame, Refusal, Shape, Side, Tables};

const BENCH: Shape = Shape {
    lines: 9,
    espi: 4,
    eppi: 1,
    mbis: true,
};

fn slot(intid: usize) -> usize {
    if intid < 4096 {
        intid - 32
    } else {
        988 + (intid - 4096)
    }
}

// The bench with some Distributor records, all others 0.
fn bench(records: &[(usize, u8)]) -> Controller {
    let mut tables = Tables::all_present();
    for &(intid, record) in records {
        tables.dist[slot(intid)] = record;
    }
    Controller {
        shape: BENCH,
        tables,
    }
}

fn ns_write(c: &mut Controller, offset: u32, value: u32) {
    let write = Access::write(Frame::Dist, Side::NonSecure, 4, offset, value);
    assert_eq!(c.access(write), Ok(0));
}

fn read(c: &mut Controller, side: Side, offset: u32) -> Result<u32, Refusal> {
    c.access(Access::read(Frame::Dist, side, 4, offset))
}

#[test]
fn k1_set_pending() {
    let mut c = bench(&[(300, 0x60)]);
    ns_write(&mut c, 0x224, 0x1000);
    assert_eq!(c, bench(&[(300, 0x62)]));
    for side in [Side::NonSecure, Side::Secure] {
        assert_eq!(read(&mut c, side, 0x224), Ok(0x1000));
        assert_eq!(read(&mut c, side, 0x2A4), Ok(0x1000));
    }
}

#[test]
fn k2_a_message_clears_one_interrupt() {
    let mut c = bench(&[(300, 0x62), (44, 0x22)]);
    ns_write(&mut c, 0x48, 300);
    assert_eq!(c, bench(&[(300, 0x60), (44, 0x22)]));
}

#[test]
fn k4_pending_outlives_the_wire() {
    let mut c = bench(&[(300, 0x44)]);
    ns_write(&mut c, 0x224, 0x1000);
    assert_eq!(c, bench(&[(300, 0x46)]));
    let low = Event::Wire {
        intid: 300,
        level: false,
    };
    assert_eq!(c.event(low), Ok(()));
    assert_eq!(c, bench(&[(300, 0x42)]));
}

#[test]
fn k6_an_extended_spi() {
    let mut c = bench(&[(4131, 0x62)]);
    ns_write(&mut c, 0x1804, 8);
    assert_eq!(c, bench(&[(4131, 0x60)]));
}

#[test]
fn k8_an_extended_ppi() {
    let mut c = bench(&[]);
    c.tables.redist[32] = 0x60;
    let write = Access::write(Frame::Redist, Side::NonSecure, 4, 0x204, 1);
    assert_eq!(c.access(write), Ok(0));
    let mut after = bench(&[]);
    after.tables.redist[32] = 0x62;
    assert_eq!(c, after);
}

#[test]
fn k9_what_each_side_sees() {
    let mut c = bench(&[(300, 0x22)]);
    assert_eq!(read(&mut c, Side::Secure, 0x224), Ok(0x1000));
    assert_eq!(read(&mut c, Side::NonSecure, 0x224), Ok(0));
}

#[test]
fn k12_activate_once() {
    let mut c = bench(&[(300, 0x63)]);
    let activate = Event::Activate {
        side: Side::NonSecure,
        intid: 300,
    };
    assert_eq!(c.event(activate), Ok(()));
    assert_eq!(c, bench(&[(300, 0x71)]));
    assert_eq!(c.event(activate), Err(Refusal::State));
    let deactivate = Event::Deactivate {
        side: Side::NonSecure,
        intid: 300,
    };
    assert_eq!(c.event(deactivate), Ok(()));
    assert_eq!(c, bench(&[(300, 0x61)]));
}

// Document 02, CR 2: both grouping bits set is Non-secure, and the modifier alone is Secure.
#[test]
fn both_grouping_bits() {
    let activate = Event::Activate {
        side: Side::NonSecure,
        intid: 300,
    };
    let mut c = bench(&[(300, 0xE1)]);
    ns_write(&mut c, 0x224, 0x1000);
    assert_eq!(c, bench(&[(300, 0xE3)]));
    assert_eq!(read(&mut c, Side::NonSecure, 0x224), Ok(0x1000));
    assert_eq!(read(&mut c, Side::NonSecure, 0xD24), Ok(0));
    assert_eq!(read(&mut c, Side::Secure, 0xD24), Ok(0x1000));
    assert_eq!(c.event(activate), Ok(()));
    assert_eq!(c, bench(&[(300, 0xF1)]));
    let mut c = bench(&[(300, 0xA3)]);
    assert_eq!(read(&mut c, Side::NonSecure, 0x224), Ok(0));
    assert_eq!(c.event(activate), Err(Refusal::Intid));
    assert_eq!(c, bench(&[(300, 0xA3)]));
}

#[test]
fn refusals_by_name() {
    let mut c = bench(&[(300, 0x63)]);
    let at = |width, offset| Access::read(Frame::Dist, Side::NonSecure, width, offset);
    assert_eq!(c.access(at(1, 0x224)), Err(Refusal::Width));
    assert_eq!(c.access(at(4, 0x226)), Err(Refusal::Alignment));
    assert_eq!(c.access(at(4, 0x10000)), Err(Refusal::Offset));
    assert_eq!(c.access(at(4, 0xFFFC)), Err(Refusal::Unlisted));
    assert_eq!(c.access(at(2, 0x224)), Err(Refusal::Narrow));
    assert_eq!(c.access(at(2, 0x40)), Ok(0));
    let wire = |intid| Event::Wire { intid, level: true };
    assert_eq!(c.event(wire(65836)), Err(Refusal::Intid));
    assert_eq!(c.event(wire(3)), Err(Refusal::SgiWire));
    assert_eq!(c, bench(&[(300, 0x63)]));
    c.shape.lines = 32;
    assert_eq!(c.event(Event::Reset), Err(Refusal::Shape));
    c.shape = BENCH;
    assert_eq!(c.event(Event::Reset), Ok(()));
    assert_eq!(c, bench(&[]));
}

#[test]
fn a_missing_interrupt_reads_zero_and_is_left() {
    let mut c = bench(&[(300, 0x22)]);
    c.tables.dist_presence[8] &= !0x1000;
    let before = c.clone();
    assert_eq!(read(&mut c, Side::Secure, 0x224), Ok(0));
    let high = Event::Wire {
        intid: 300,
        level: true,
    };
    assert_eq!(c.event(high), Err(Refusal::Intid));
    let clear = Access::write(Frame::Dist, Side::Secure, 4, 0x2A4, u32::MAX);
    assert_eq!(c.access(clear), Ok(0));
    assert_eq!(c, before);
}

#[test]
fn a_refusal_says_its_number() {
    assert_eq!(Refusal::State.to_string(), "refused 9 (State)");
    assert_eq!(Refusal::Nameless.number(), 100);
}
