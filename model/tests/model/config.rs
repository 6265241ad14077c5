//! ICFGR: fields, triggers, and who may write them.

use super::support::*;

#[test]
fn field_x_has_edge_in_its_upper_bit() {
    // 300 is field 12 of word 18 (288 + 12).
    for x in 0..16 {
        let mut bench = Bench::with(0x40, &[]);
        let step = write(Distributor, NonSecure, 0xC48, 2 << (2 * x));
        bench.does(step, &[(288 + x, 0x60)]);
        let seen = value(2 << (2 * x));
        bench.only_answers(read(Distributor, NonSecure, 0xC48), seen);
    }
}

#[test]
fn fields_stand_for_their_intids_in_every_column() {
    let rows = [
        (Distributor, 0xC08, 32),
        (Distributor, 0xC4C, 304),
        (Distributor, 0xCF8, 992),
        (Distributor, 0x3000, 4096),
        (Distributor, 0x3004, 4112),
        (Distributor, 0x30FC, 5104),
        (Redistributor, 0xC04, 16),
        (Redistributor, 0xC08, 1056),
        (Redistributor, 0xC0C, 1072),
        (Redistributor, 0xC10, 1088),
        (Redistributor, 0xC14, 1104),
    ];
    for (frame, offset, first) in rows {
        for x in [0, 1, 15] {
            let mut bench = Bench::shaped(LARGEST, 0x40, &[]);
            let step = write(frame, NonSecure, offset, 2 << (2 * x));
            bench.does(step, &[(first + x, 0x60)]);
        }
    }
}

#[test]
fn distributor_word_63_has_12_fields() {
    let named: Vec<(u32, u8)> = (1008..=1019).map(|intid| (intid, 0x60)).collect();
    let mut bench = Bench::shaped(LARGEST, 0x40, &[]);
    bench.does(write(Distributor, NonSecure, 0xCFC, u32::MAX), &named);
    bench.only_answers(read(Distributor, NonSecure, 0xCFC), value(0x00AA_AAAA));
}

#[test]
fn distributor_words_0_and_1_are_res0_for_both_sides() {
    for offset in [0xC00, 0xC04] {
        for others in [0x00, 0x40, 0x60, 0xFE] {
            for side in SIDES {
                let mut bench = Bench::with(others, &[]);
                bench.only_answers(write(Distributor, side, offset, u32::MAX), DONE);
                bench.only_answers(write(Distributor, side, offset, 0), DONE);
                bench.only_answers(read(Distributor, side, offset), value(0));
            }
        }
    }
}

#[test]
fn the_lower_bit_is_ignored_and_reads_0() {
    let mut bench = Bench::with(0x40, &[]);
    bench.only_answers(write(Distributor, NonSecure, 0xC48, 0x5555_5555), DONE);
    bench.only_answers(read(Distributor, NonSecure, 0xC48), value(0));
    let mut bench = Bench::with(0x60, &[]);
    bench.only_answers(write(Distributor, NonSecure, 0xC48, u32::MAX), DONE);
    bench.only_answers(read(Distributor, NonSecure, 0xC48), value(0xAAAA_AAAA));
}

#[test]
fn sgi_fields_read_edge_and_their_records_stay() {
    // Whatever bit 32 of the record says, enabled or not.
    for byte in [0x40, 0x60, 0x4E, 0x6F] {
        for side in SIDES {
            for written in [0, u32::MAX, 0xAAAA_AAAA] {
                let mut bench = Bench::with(byte, &[]);
                bench.only_answers(write(Redistributor, side, 0xC00, written), DONE);
                let seen = value(0xAAAA_AAAA);
                bench.only_answers(read(Redistributor, side, 0xC00), seen);
            }
        }
    }
    // A Secure SGI shows 00 to the Non-secure side, a Non-secure one 10, whatever its modifier.
    let mut bench = Bench::with(0x00, &[(3, 0x40), (4, 0xC0), (5, 0x80)]);
    bench.only_answers(read(Redistributor, NonSecure, 0xC00), value(0x280));
    bench.only_answers(read(Redistributor, Secure, 0xC00), value(0xAAAA_AAAA));
}

#[test]
fn an_enabled_interrupts_field_ignores_writes() {
    for (start, written) in [(0x4F, u32::MAX), (0x6F, 0)] {
        for side in SIDES {
            let mut bench = Bench::with(start, &[]);
            bench.only_answers(write(Distributor, side, 0xC48, written), DONE);
            bench.only_answers(write(Redistributor, side, 0xC04, written), DONE);
        }
    }
}

#[test]
fn a_change_of_trigger_clears_latch_and_message_level_only() {
    // To edge: wire, active and grouping stay.
    let mut bench = Bench::with(0x4E, &[(300, 0x5E)]);
    let to_edge = write(Distributor, NonSecure, 0xC48, 2 << 24);
    bench.does(to_edge, &[(300, 0x74)]);
    // To level: the others of the word were level already and stay pending.
    let to_level = write(Distributor, NonSecure, 0xC48, 0);
    bench.does(to_level, &[(300, 0x54)]);
}

#[test]
fn the_same_trigger_again_clears_nothing() {
    for (byte, written) in [(0x6E, u32::MAX), (0x4E, 0)] {
        let mut bench = Bench::with(byte, &[]);
        bench.only_answers(write(Distributor, NonSecure, 0xC48, written), DONE);
        bench.only_answers(write(Distributor, Secure, 0xC48, written), DONE);
    }
}

#[test]
fn one_word_goes_field_by_field() {
    // Enabled level, disabled level, enabled edge, disabled edge, Secure level.
    let start = [
        (288, 0x4B),
        (289, 0x4A),
        (290, 0x6B),
        (291, 0x6A),
        (292, 0x0A),
    ];
    let mut bench = Bench::with(0x61, &start);
    let to_edge = write(Distributor, NonSecure, 0xC48, u32::MAX);
    bench.does(to_edge, &[(289, 0x60)]);
    let to_level = write(Distributor, NonSecure, 0xC48, 0);
    bench.does(to_level, &[(289, 0x40), (291, 0x40)]);
    // The Secure side reaches all fields.
    let to_edge = write(Distributor, Secure, 0xC48, u32::MAX);
    bench.does(to_edge, &[(289, 0x60), (291, 0x60), (292, 0x20)]);
}

#[test]
fn secure_fields_read_0_to_the_non_secure_side() {
    let start = [(288, 0x20), (289, 0xA0), (290, 0xE0), (291, 0x60)];
    let mut bench = Bench::with(0x00, &start);
    bench.only_answers(read(Distributor, NonSecure, 0xC48), value(0xA0));
    bench.only_answers(read(Distributor, Secure, 0xC48), value(0xAA));
}

#[test]
fn ppis_are_programmable() {
    let mut bench = Bench::with(0x40, &[]);
    let to_edge = write(Redistributor, NonSecure, 0xC04, 0x8000_0000);
    bench.does(to_edge, &[(31, 0x60)]);
    let to_level = write(Redistributor, NonSecure, 0xC04, 0);
    bench.does(to_level, &[(31, 0x40)]);
}
