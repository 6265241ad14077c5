//! The Limits line of document 01, table places, and the shape's numbers.

use super::support::*;
use berduzhika_model::{Lent, Shape, Step};

/// Whether an interrupt exists: a wire event reaches all but SGIs.
fn exists(shape: Shape, intid: u32) -> bool {
    let mut lent = Lent::all_present();
    let level = true;
    let answer = berduzhika_model::step(shape, &mut lent, Step::Wire { intid, level });
    match answer.status {
        0 => {
            let mut expected = Lent::all_present();
            *record(&mut expected, intid) = 4;
            assert!(lent == expected, "{intid} has another record");
            true
        }
        7 => {
            assert!(lent == Lent::all_present(), "{intid} changed a table");
            false
        }
        other => panic!("{intid} gives {other}"),
    }
}

#[test]
fn the_last_interrupts_of_the_bench() {
    for intid in [16, 31, 32, 319, 1056, 1087, 4096, 4223] {
        assert!(exists(BENCH, intid), "{intid}");
    }
    for intid in [320, 1019, 1020, 1023, 1024, 1055, 1088, 4095, 4224, 5119] {
        assert!(!exists(BENCH, intid), "{intid}");
    }
}

#[test]
fn the_last_interrupts_of_the_largest_shape() {
    for intid in [31, 32, 991, 992, 1019, 1056, 1119, 4096, 5119] {
        assert!(exists(LARGEST, intid), "{intid}");
    }
    for intid in [1020, 1021, 1022, 1023, 1055, 1120, 4095, 5120, 8191, 8192] {
        assert!(!exists(LARGEST, intid), "{intid}");
    }
    assert!(
        !exists(
            Shape {
                lines: 30,
                ..LARGEST
            },
            992
        ),
        "992 needs lines 31"
    );
}

#[test]
fn the_smallest_shape_has_sgis_and_ppis_only() {
    let smallest = Shape {
        lines: 0,
        espi: 0,
        eppi: 0,
        mbis: false,
    };
    for intid in 16..6000 {
        assert_eq!(exists(smallest, intid), intid <= 31, "{intid}");
    }
    let mut bench = Bench::shaped(smallest, 0, &[(0, 0x43)]);
    let activate = Step::Activate {
        side: NonSecure,
        intid: 0,
    };
    bench.does(activate, &[(0, 0x51)]);
}

#[test]
fn every_shape_number_moves_its_own_limit() {
    for lines in 0..=31 {
        let shape = Shape { lines, ..LARGEST };
        let last = (32 * lines + 31).min(1019);
        assert!(exists(shape, last) && !exists(shape, last + 1), "{lines}");
    }
    for espi in 0..=32 {
        let shape = Shape { espi, ..LARGEST };
        assert_eq!(exists(shape, 4095 + 32 * espi), espi > 0, "{espi}");
        assert!(!exists(shape, 4096 + 32 * espi), "{espi}");
    }
    for eppi in 0..=2 {
        let shape = Shape { eppi, ..LARGEST };
        assert_eq!(exists(shape, 1055 + 32 * eppi), eppi > 0, "{eppi}");
        assert!(!exists(shape, 1056 + 32 * eppi), "{eppi}");
    }
}

#[test]
fn widths_and_offsets_of_the_limits_line() {
    let rows = [
        (2, 0x40, 0),
        (2, 0x42, 6),
        (2, 0x224, 6),
        (1, 0x40, 2),
        (4, 0x226, 3),
        (4, 0x1_0000, 4),
        (4, 0x0000, 5),
        (4, 0xFFFC, 5),
    ];
    for (width, offset, status) in rows {
        for side in SIDES {
            for writes in [false, true] {
                let mut bench = Bench::with(0x60, &[]);
                let step = access(Distributor, side, writes, width, offset, 0);
                bench.only_answers(step, refused(status));
            }
        }
    }
}

#[test]
fn typer_of_other_shapes() {
    let rows = [
        ((0, 0, false), 0x0260_0400),
        ((31, 0, true), 0x0261_041F),
        ((0, 1, false), 0x0260_0500),
        ((31, 32, true), 0xFA61_051F),
    ];
    for ((lines, espi, mbis), typer) in rows {
        let shape = Shape {
            lines,
            espi,
            eppi: 2,
            mbis,
        };
        let mut bench = Bench::shaped(shape, 0, &[]);
        for side in SIDES {
            bench.only_answers(write(Distributor, side, 0x004, u32::MAX), DONE);
            bench.only_answers(read(Distributor, side, 0x004), value(typer));
        }
    }
}

#[test]
fn records_are_loaded_and_stored_at_their_slots() {
    let places = [
        (0, false, 0),
        (31, false, 31),
        (1056, false, 32),
        (1119, false, 95),
        (32, true, 0),
        (1019, true, 987),
        (4096, true, 988),
        (5119, true, 2011),
    ];
    for (intid, dist, slot) in places {
        let mut lent = Lent::all_present();
        let table = if dist {
            &mut lent.dist
        } else {
            &mut lent.redist
        };
        table[slot] = 0xA5;
        let machine = berduzhika_model::Machine::load(LARGEST, &lent).expect("well-formed");
        assert_eq!(machine.record(intid), Some(0xA5), "{intid}");
        assert_eq!(machine.records().filter(|(_, byte)| *byte != 0).count(), 1);
        let mut stored = filled(0x11);
        assert_eq!(machine.store(&mut stored), Ok(()));
        assert!(stored == lent, "{intid}");
    }
}

#[test]
fn every_byte_is_kept_and_numbers_without_record_have_none() {
    let lent = Lent::all_present();
    let mut machine = berduzhika_model::Machine::load(BENCH, &lent).expect("well-formed");
    for byte in 0..=255 {
        assert!(machine.set_record(300, byte));
        assert_eq!(machine.record(300), Some(byte));
    }
    for intid in [1020, 1055, 1120, 4095, 5120, 65836, u32::MAX] {
        assert!(!machine.set_record(intid, 1));
        assert_eq!(machine.record(intid), None);
    }
    assert_eq!(machine.records().count(), 2012 + 96);
}
