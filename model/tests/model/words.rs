//! The bit families: which interrupt a bit stands for, and what a bit does.

use super::support::*;

/// Each pair's set base and clear base, and the record bit that it moves.
const PAIRS: [(u32, u32, u8); 3] = [
    (0x100, 0x180, 0x01),
    (0x200, 0x280, 0x02),
    (0x300, 0x380, 0x10),
];

/// A Non-secure edge record: nothing else is pending with it.
const PLAIN: u8 = 0x60;

#[test]
fn a_written_one_acts_and_a_zero_does_nothing() {
    for (set, clear, bit) in PAIRS {
        for side in SIDES {
            let on = PLAIN | bit;
            let mut bench = Bench::with(PLAIN, &[(300, on), (301, on)]);
            bench.does(write(Distributor, side, set + 0x24, 0), &[]);
            bench.does(write(Distributor, side, clear + 0x24, 0), &[]);
            let setting = write(Distributor, side, set + 0x24, 0x5000);
            bench.does(setting, &[(302, on)]);
            let clearing = write(Distributor, side, clear + 0x24, 0xB000);
            bench.does(clearing, &[(300, PLAIN), (301, PLAIN)]);
            for offset in [set + 0x24, clear + 0x24] {
                bench.only_answers(read(Distributor, side, offset), value(0x4000));
            }
        }
    }
}

#[test]
fn words_stand_for_their_intids_in_every_column() {
    let rows = [
        (Distributor, 0x204, 32),
        (Distributor, 0x224, 288),
        (Distributor, 0x278, 960),
        (Distributor, 0x1600, 4096),
        (Distributor, 0x167C, 5088),
        (Redistributor, 0x200, 0),
        (Redistributor, 0x204, 1056),
        (Redistributor, 0x208, 1088),
    ];
    for (frame, offset, first) in rows {
        for x in 0..32 {
            let mut bench = Bench::shaped(LARGEST, PLAIN, &[]);
            let step = write(frame, NonSecure, offset, 1 << x);
            bench.does(step, &[(first + x, PLAIN | 2)]);
            bench.only_answers(read(frame, NonSecure, offset), value(1 << x));
        }
    }
}

#[test]
fn every_family_reaches_its_own_fact_in_every_column() {
    let rows = [
        (0x080, 0x1000, 0x00, 0x40),
        (0x100, 0x1200, 0x00, 0x01),
        (0x180, 0x1400, 0x01, 0x00),
        (0x200, 0x1600, 0x00, 0x02),
        (0x280, 0x1800, 0x02, 0x00),
        (0x300, 0x1A00, 0x00, 0x10),
        (0x380, 0x1C00, 0x10, 0x00),
        (0xD00, 0x3400, 0x00, 0x80),
    ];
    for (base, extended, before, after) in rows {
        let places = [
            (Distributor, base + 0x24, 300),
            (Distributor, extended + 0x24, 4396),
            (Redistributor, base, 12),
            (Redistributor, base + 4, 1068),
            (Redistributor, base + 8, 1100),
        ];
        for (frame, offset, intid) in places {
            let others = 0x0C;
            let mut bench = Bench::shaped(LARGEST, others, &[(intid, before)]);
            // Grouping words are stored whole; their other bits are 0 already.
            let step = write(frame, Secure, offset, 0x1000);
            bench.does(step, &[(intid, after)]);
        }
    }
}

#[test]
fn distributor_word_31_has_28_interrupts() {
    let named: Vec<(u32, u8)> = (992..=1019).map(|intid| (intid, PLAIN | 2)).collect();
    for side in SIDES {
        let mut bench = Bench::shaped(LARGEST, PLAIN, &[]);
        bench.does(write(Distributor, side, 0x27C, u32::MAX), &named);
        bench.only_answers(read(Distributor, side, 0x27C), value(0x0FFF_FFFF));
        bench.only_answers(read(Distributor, side, 0x2FC), value(0x0FFF_FFFF));
    }
}

#[test]
fn distributor_word_0_is_res0_for_both_sides() {
    for base in [0x080, 0x100, 0x180, 0x200, 0x280, 0x300, 0x380, 0xD00] {
        for others in [0x00, 0x40, 0x60, 0xFF] {
            for side in SIDES {
                let mut bench = Bench::with(others, &[]);
                bench.only_answers(write(Distributor, side, base, u32::MAX), DONE);
                bench.only_answers(read(Distributor, side, base), value(0));
            }
        }
    }
}

#[test]
fn words_past_the_shape_are_done_and_do_nothing() {
    let rows = [
        (Distributor, 0x228),
        (Distributor, 0x27C),
        (Distributor, 0x1610),
        (Distributor, 0x1810),
        (Redistributor, 0x208),
        (Distributor, 0x0A8),
        (Distributor, 0xCFC),
        (Distributor, 0x3020),
        (Redistributor, 0xC10),
    ];
    for (frame, offset) in rows {
        for side in SIDES {
            let mut bench = Bench::with(0x66, &[]);
            bench.only_answers(write(frame, side, offset, u32::MAX), DONE);
            bench.only_answers(read(frame, side, offset), value(0));
        }
    }
}

#[test]
fn security_is_asked_for_each_bit() {
    // Group 0, Secure Group 1; group alone and both bits 1, which are Non-secure.
    let start = [(300, 0x20), (301, 0xA0), (302, 0x60), (303, 0xE0)];
    for (set, clear, bit) in PAIRS {
        let mut bench = Bench::with(0x00, &start);
        let step = write(Distributor, NonSecure, set + 0x24, 0xF000);
        bench.does(step, &[(302, 0x60 | bit), (303, 0xE0 | bit)]);
        let all: Vec<(u32, u8)> = start.iter().map(|(m, byte)| (*m, byte | bit)).collect();
        bench.does(write(Distributor, Secure, set + 0x24, 0xF000), &all);
        bench.only_answers(read(Distributor, Secure, clear + 0x24), value(0xF000));
        bench.only_answers(read(Distributor, NonSecure, clear + 0x24), value(0xC000));
        let step = write(Distributor, NonSecure, clear + 0x24, u32::MAX);
        bench.does(step, &[(302, 0x60), (303, 0xE0)]);
    }
}

#[test]
fn grouping_words_are_stored_by_the_secure_side_only() {
    for (offset, bit) in [(0x0A4, 0x40), (0xD24, 0x80)] {
        let start = [(300, 0xFF), (301, 0x60), (302, 0x00)];
        let mut bench = Bench::with(0x00, &start);
        let stored = if bit == 0x40 { 0x3000 } else { 0x1000 };
        bench.only_answers(read(Distributor, Secure, offset), value(stored));
        bench.only_answers(read(Distributor, NonSecure, offset), value(0));
        for written in [0, u32::MAX] {
            bench.only_answers(write(Distributor, NonSecure, offset, written), DONE);
        }
        // Bits written 0 are cleared, unlike those of the set and clear families.
        let after = [(300, !bit), (301, 0x60 & !bit), (302, bit)];
        bench.does(write(Distributor, Secure, offset, 0x4000), &after);
        bench.only_answers(read(Distributor, Secure, offset), value(0x4000));
    }
}

#[test]
fn pending_reads_by_trigger() {
    // Level: latch, wire or message level; edge: the latch alone.
    let level = [(0x40, 0), (0x42, 1), (0x44, 1), (0x48, 1), (0x4E, 1)];
    let edge = [(0x60, 0), (0x62, 1), (0x64, 0), (0x68, 0), (0x6C, 0)];
    for (byte, pending) in level.into_iter().chain(edge) {
        for offset in [0x224, 0x2A4] {
            let mut bench = Bench::with(0x40, &[(300, byte)]);
            let seen = value(pending << 12);
            bench.only_answers(read(Distributor, NonSecure, offset), seen);
        }
    }
    // An SGI is edge whatever bit 32 says: neither wire nor message level counts.
    for (byte, pending) in [(0x4C, 0), (0x42, 1), (0x6C, 0)] {
        let mut bench = Bench::with(0x40, &[(5, byte)]);
        let seen = value(pending << 5);
        bench.only_answers(read(Redistributor, NonSecure, 0x200), seen);
    }
}
