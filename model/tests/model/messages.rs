//! SETSPI and CLRSPI.

use super::support::*;
use berduzhika_model::{Shape, Side};

const SETSPI_NSR: u32 = 0x40;
const CLRSPI_NSR: u32 = 0x48;
const SETSPI_SR: u32 = 0x50;
const CLRSPI_SR: u32 = 0x58;
const ALL: [u32; 4] = [SETSPI_NSR, CLRSPI_NSR, SETSPI_SR, CLRSPI_SR];

#[track_caller]
fn changes(side: Side, offset: u32, intid: u32, before: u8, after: u8) {
    let mut bench = Bench::with(0x00, &[(intid, before)]);
    bench.does(write(Distributor, side, offset, intid), &[(intid, after)]);
}

#[test]
fn a_set_stores_the_latch_for_edge_and_message_level_for_level() {
    for intid in [32, 300, 319, 4096, 4223] {
        changes(NonSecure, SETSPI_NSR, intid, 0x60, 0x62);
        changes(NonSecure, SETSPI_NSR, intid, 0x40, 0x48);
        // An edge interrupt's wire and message level do not make it pending.
        changes(NonSecure, SETSPI_NSR, intid, 0x6C, 0x6E);
    }
}

#[test]
fn a_set_does_nothing_if_already_pending() {
    for byte in [0x42, 0x44, 0x46, 0x48, 0x62] {
        changes(NonSecure, SETSPI_NSR, 300, byte, byte);
    }
    for byte in [0x02, 0x04, 0x84, 0xC4] {
        changes(Secure, SETSPI_SR, 300, byte, byte);
    }
}

#[test]
fn a_clear_drops_the_latch_for_edge_and_message_level_for_level() {
    changes(NonSecure, CLRSPI_NSR, 300, 0x6E, 0x6C);
    changes(NonSecure, CLRSPI_NSR, 300, 0x4E, 0x46);
    changes(NonSecure, CLRSPI_NSR, 300, 0x46, 0x46);
    changes(NonSecure, CLRSPI_NSR, 300, 0x6C, 0x6C);
}

#[test]
fn which_side_may_name_which_kind() {
    // Group 0 and Secure Group 1 are Secure.
    for secure in [0x20, 0xA0] {
        for (set, clear) in [(SETSPI_NSR, CLRSPI_NSR), (SETSPI_SR, CLRSPI_SR)] {
            changes(Secure, set, 300, secure, secure | 2);
            changes(Secure, clear, 300, secure | 2, secure);
            changes(NonSecure, set, 300, secure, secure);
            changes(NonSecure, clear, 300, secure | 2, secure | 2);
        }
    }
    // Group alone and both bits 1 are Non-secure.
    for open in [0x60, 0xE0] {
        changes(NonSecure, SETSPI_NSR, 300, open, open | 2);
        changes(NonSecure, CLRSPI_NSR, 300, open | 2, open);
        // A Secure write may name a Non-secure SPI in both registers.
        for (set, clear) in [(SETSPI_NSR, CLRSPI_NSR), (SETSPI_SR, CLRSPI_SR)] {
            changes(Secure, set, 300, open, open | 2);
            changes(Secure, clear, 300, open | 2, open);
        }
        // The Non-secure side's write to an SR register does nothing at all.
        changes(NonSecure, SETSPI_SR, 300, open, open);
        changes(NonSecure, CLRSPI_SR, 300, open | 2, open | 2);
    }
}

#[test]
fn the_intid_is_value_bits_12_to_0() {
    for written in [300, 8492, 8192 * 7 + 300, 0xFFFF_E000 + 300] {
        let mut bench = Bench::with(0x60, &[]);
        bench.does(
            write(Distributor, NonSecure, SETSPI_NSR, written),
            &[(300, 0x62)],
        );
        bench.does(
            write(Distributor, NonSecure, CLRSPI_NSR, written),
            &[(300, 0x60)],
        );
    }
    // 556 and 300 have the same low 8 bits, and so have 44 and 300.
    let shape = Shape { lines: 31, ..BENCH };
    let mut bench = Bench::shaped(shape, 0x60, &[]);
    let step = write(Distributor, NonSecure, SETSPI_NSR, 556);
    bench.does(step, &[(556, 0x62)]);
}

#[test]
fn a_half_word_write_does_the_same() {
    for upper in [0, 0xFFFF_0000, 0x0001_0000] {
        for (offset, before, after) in [(SETSPI_NSR, 0x60, 0x62), (CLRSPI_NSR, 0x62, 0x60)] {
            let mut bench = Bench::with(0x00, &[(4131, before)]);
            let step = access(Distributor, NonSecure, true, 2, offset, upper + 4131);
            bench.does(step, &[(4131, after)]);
        }
        for (offset, before, after) in [(SETSPI_SR, 0x20, 0x22), (CLRSPI_SR, 0x22, 0x20)] {
            let mut bench = Bench::with(0x00, &[(4131, before)]);
            let step = access(Distributor, Secure, true, 2, offset, upper + 4131);
            bench.does(step, &[(4131, after)]);
        }
    }
}

#[test]
fn other_numbers_are_done_and_nothing_changes() {
    let none = [
        0, 15, 16, 31, 320, 1019, 1020, 1023, 1024, 1056, 1087, 1119, 4095, 4224, 5119, 5120, 8191,
    ];
    for intid in none {
        for offset in ALL {
            for side in SIDES {
                for others in [0x60, 0x62, 0x40, 0x48] {
                    let mut bench = Bench::with(others, &[]);
                    bench.only_answers(write(Distributor, side, offset, intid), DONE);
                }
            }
        }
    }
}

#[test]
fn without_mbis_the_registers_stay_listed_and_do_nothing() {
    let shape = Shape {
        mbis: false,
        ..BENCH
    };
    for offset in ALL {
        for side in SIDES {
            for width in [2, 4] {
                for others in [0x60, 0x62, 0x40, 0x48] {
                    let mut bench = Bench::shaped(shape, others, &[]);
                    let writing = access(Distributor, side, true, width, offset, 300);
                    bench.only_answers(writing, DONE);
                    let reading = access(Distributor, side, false, width, offset, 300);
                    bench.only_answers(reading, value(0));
                }
            }
        }
    }
}

#[test]
fn reads_give_0() {
    for offset in ALL {
        for side in SIDES {
            for width in [2, 4] {
                let mut bench = Bench::with(0x6F, &[]);
                let step = access(Distributor, side, false, width, offset, 300);
                bench.only_answers(step, value(0));
            }
        }
    }
}
