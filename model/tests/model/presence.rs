//! Missing interrupts: which presence bit is whose, and that nothing but reset
//! touches their records.

use super::support::*;
use berduzhika_model::{Lent, Shape, Step};

/// Clears one presence bit: a Distributor word or a Redistributor one.
fn without(mut lent: Lent, dist: bool, word: usize, bit: u32) -> Lent {
    let table = if dist {
        &mut lent.dist_presence
    } else {
        &mut lent.redist_presence
    };
    table[word] &= !(1 << bit);
    lent
}

#[test]
fn presence_words_follow_register_words() {
    let rows = [
        (false, 0, 16, 16),
        (false, 0, 31, 31),
        (false, 1, 0, 1056),
        (false, 1, 31, 1087),
        (false, 2, 0, 1088),
        (false, 2, 31, 1119),
        (true, 0, 0, 32),
        (true, 0, 12, 44),
        (true, 8, 12, 300),
        (true, 30, 0, 992),
        (true, 30, 27, 1019),
        (true, 31, 0, 4096),
        (true, 32, 3, 4131),
        (true, 62, 31, 5119),
    ];
    let all: Vec<u32> = (16..1020).chain(1056..1120).chain(4096..5120).collect();
    for (dist, word, bit, intid) in rows {
        let lent = without(filled(0x40), dist, word, bit);
        let mut machine = berduzhika_model::Machine::load(LARGEST, &lent).expect("well-formed");
        for other in &all {
            let level = true;
            let answer = machine.step(Step::Wire {
                intid: *other,
                level,
            });
            let status = if *other == intid { 7 } else { 0 };
            assert_eq!(answer, refused(status), "{other} without {intid}");
        }
        assert_eq!(machine.record(intid), Some(0x40));
    }
}

#[test]
fn bits_28_to_31_of_presence_word_30_are_ignored() {
    let mut bare = filled(0x40);
    bare.dist_presence[30] = 0x0FFF_FFFF;
    for lent in [filled(0x40), bare] {
        let mut bench = Bench::new(LARGEST, lent);
        for intid in 1020..1024 {
            bench.only_answers(Step::Wire { intid, level: true }, refused(7));
        }
        let step = write(Distributor, NonSecure, 0x27C, 0xF800_0000);
        bench.does(step, &[(1019, 0x42)]);
    }
}

#[test]
fn presence_out_of_range_makes_nothing() {
    let mut bench = Bench::with(0x43, &[]);
    let intid = 320;
    let side = Secure;
    bench.only_answers(Step::Wire { intid, level: true }, refused(7));
    bench.only_answers(Step::Activate { side, intid }, refused(7));
    bench.only_answers(write(Distributor, side, 0x228, u32::MAX), DONE);
    bench.only_answers(read(Distributor, side, 0x228), value(0));
}

/// Everything that may be asked of 300, of SGI 3 or of 1056 by word or event.
fn attempts(frame: berduzhika_model::Frame, word: u32, half: u32, intid: u32) -> Vec<Step> {
    let bases = [0x080, 0x100, 0x180, 0x200, 0x280, 0x300, 0x380, 0xD00];
    let mut steps = Vec::new();
    for side in SIDES {
        for written in [0, u32::MAX] {
            for base in bases {
                steps.push(write(frame, side, base + 4 * word, written));
            }
            steps.push(write(frame, side, 0xC00 + 4 * half, written));
        }
        for offset in [0x40, 0x48, 0x50, 0x58] {
            steps.push(write(Distributor, side, offset, intid));
        }
        steps.push(Step::Activate { side, intid });
        steps.push(Step::Deactivate { side, intid });
    }
    for level in [true, false] {
        steps.push(Step::Wire { intid, level });
    }
    steps
}

#[test]
fn nothing_but_reset_touches_a_missing_record() {
    let rows = [
        (Distributor, 9, 18, 300),
        (Redistributor, 0, 0, 3),
        (Redistributor, 1, 2, 1056),
    ];
    for (frame, word, half, intid) in rows {
        for byte in 0..=255 {
            let mut lent = filled(0x40);
            lent.dist_presence.fill(0);
            lent.redist_presence.fill(0);
            *record(&mut lent, intid) = byte;
            let mut machine = berduzhika_model::Machine::load(BENCH, &lent).expect("well-formed");
            for step in attempts(frame, word, half, intid) {
                let answer = machine.step(step);
                let event = !matches!(step, Step::Access { .. });
                assert_eq!(answer, refused(if event { 7 } else { 0 }), "{step:?}");
            }
            let mut after = filled(0);
            after.dist_presence.fill(0);
            after.redist_presence.fill(0);
            assert_eq!(machine.store(&mut after), Ok(()));
            assert!(after == lent, "{intid} from {byte:02X}");
            assert_eq!(machine.step(Step::Reset), DONE);
            assert_eq!(machine.record(intid), Some(0));
        }
    }
}

#[test]
fn bits_of_missing_interrupts_read_0_in_every_family() {
    let bases = [0x080, 0x100, 0x180, 0x200, 0x280, 0x300, 0x380, 0xD00];
    let lent = without(filled(0xFF), true, 8, 12);
    let mut bench = Bench::new(BENCH, lent);
    for base in bases {
        let seen = value(!0x1000);
        bench.only_answers(read(Distributor, Secure, base + 0x24), seen);
    }
    let seen = value(0xAAAA_AAAA & !(2 << 24));
    bench.only_answers(read(Distributor, Secure, 0xC48), seen);
    // A missing SGI's ICFGR field reads 00.
    let lent = without(filled(0x00), false, 0, 3);
    let mut bench = Bench::new(BENCH, lent);
    let seen = value(0xAAAA_AAAA & !(2 << 6));
    bench.only_answers(read(Redistributor, Secure, 0xC00), seen);
}

#[test]
fn a_missing_interrupt_beside_present_ones_keeps_its_record() {
    let shape = Shape { lines: 31, ..BENCH };
    let lent = without(filled(0x60), true, 8, 12);
    let mut bench = Bench::new(shape, lent);
    let step = write(Distributor, NonSecure, 0x224, 0x3800);
    bench.does(step, &[(299, 0x62), (301, 0x62)]);
    bench.only_answers(read(Distributor, NonSecure, 0x224), value(0x2800));
}
