//! Every refusal number and the order in which they are tried.

use super::support::*;
use berduzhika_model::{Lent, Machine, Refusal, Shape, Step};

/// Steps of every kind, among them ones that other refusals would meet.
fn any_kind() -> Vec<Step> {
    let mut steps = vec![Step::Reset];
    for side in SIDES {
        for intid in [0, 300, u32::MAX] {
            steps.push(Step::Activate { side, intid });
            steps.push(Step::Deactivate { side, intid });
        }
        for frame in [Distributor, Redistributor] {
            for (width, offset) in [(4, 0x204), (1, 0x204), (4, 1), (4, 0x1_0000), (2, 0x80)] {
                steps.push(access(frame, side, true, width, offset, 0x1000));
                steps.push(access(frame, side, false, width, offset, 0));
            }
        }
    }
    for intid in [0, 300, u32::MAX] {
        for level in [false, true] {
            steps.push(Step::Wire { intid, level });
        }
    }
    steps
}

fn all_refused_1(shape: Shape, lent: Lent) {
    assert_eq!(Machine::load(shape, &lent), Err(Refusal::Limit));
    for step in any_kind() {
        let mut after = lent.clone();
        let answer = berduzhika_model::step(shape, &mut after, step);
        assert_eq!(answer, refused(1), "{step:?}");
        assert!(after == lent, "a refused step changed a table: {step:?}");
    }
}

#[test]
fn refusal_1_for_every_table_length_comes_first() {
    let good = filled(0x63);
    for length in [0, 1, 2011, 2013, 4024] {
        let mut lent = good.clone();
        lent.dist.resize(length, 0x63);
        all_refused_1(BENCH, lent);
    }
    for length in [0, 1, 95, 97, 2012] {
        let mut lent = good.clone();
        lent.redist.resize(length, 0x63);
        all_refused_1(BENCH, lent);
    }
    for length in [0, 62, 64] {
        let mut lent = good.clone();
        lent.dist_presence.resize(length, u32::MAX);
        all_refused_1(BENCH, lent);
    }
    for length in [0, 2, 4] {
        let mut lent = good.clone();
        lent.redist_presence.resize(length, u32::MAX);
        all_refused_1(BENCH, lent);
    }
}

#[test]
fn refusal_1_for_every_shape_number_comes_first() {
    let huge = u32::MAX;
    for lines in [32, 33, 1 << 27, huge] {
        all_refused_1(Shape { lines, ..BENCH }, filled(0x63));
    }
    for espi in [33, 64, huge] {
        all_refused_1(Shape { espi, ..BENCH }, filled(0x63));
    }
    for eppi in [3, 4, huge] {
        all_refused_1(Shape { eppi, ..BENCH }, filled(0x63));
    }
}

#[test]
fn the_limits_themselves_are_well_formed() {
    let smallest = Shape {
        lines: 0,
        espi: 0,
        eppi: 0,
        mbis: false,
    };
    for shape in [smallest, BENCH, LARGEST] {
        let mut bench = Bench::shaped(shape, 0x63, &[]);
        assert_eq!(bench.step(Step::Reset), DONE);
    }
}

#[test]
fn storing_into_other_lengths_is_refused_and_stores_nothing() {
    let machine = Machine::load(BENCH, &filled(0x63)).expect("well-formed");
    let mut short = Lent::all_present();
    short.redist.pop();
    let before = short.clone();
    assert_eq!(machine.store(&mut short), Err(Refusal::Limit));
    assert!(short == before);
}

#[track_caller]
fn expect_access(frame: berduzhika_model::Frame, width: u32, offset: u32, status: u32) {
    for side in SIDES {
        for writes in [false, true] {
            let mut bench = Bench::with(0x61, &[]);
            let step = access(frame, side, writes, width, offset, 0);
            bench.only_answers(step, refused(status));
        }
    }
}

#[test]
fn refusal_2_comes_before_3_to_6() {
    for width in [0, 1, 3, 5, 8, 16, 0x1_0002, 0x1_0004, u32::MAX] {
        for offset in [0x224, 0x225, 0x1_0001, 0x0000, 0x42, u32::MAX] {
            expect_access(Distributor, width, offset, 2);
            expect_access(Redistributor, width, offset, 2);
        }
    }
}

#[test]
fn refusal_3_comes_before_4_to_6() {
    for offset in [0x1, 0x2, 0x226, 0xFFFE, 0x1_0001, 0x1_0002, u32::MAX] {
        expect_access(Distributor, 4, offset, 3);
        expect_access(Redistributor, 4, offset, 3);
    }
    for offset in [0x1, 0x41, 0x225, 0xFFFF, 0x1_0001, u32::MAX] {
        expect_access(Distributor, 2, offset, 3);
        expect_access(Redistributor, 2, offset, 3);
    }
}

#[test]
fn refusal_4_comes_before_5_and_6() {
    for offset in [0x1_0000, 0x1_0040, 0x1_0224, 0x8000_0040, u32::MAX - 3] {
        for width in [2, 4] {
            expect_access(Distributor, width, offset, 4);
            expect_access(Redistributor, width, offset, 4);
        }
    }
}

#[test]
fn refusal_5_comes_before_6() {
    for offset in [0x0000, 0x0002, 0x0044, 0x0046, 0x07C, 0xFFFC, 0xFFFE] {
        expect_access(Distributor, 2, offset, 5);
    }
    for offset in [0x0000, 0x0008, 0x0044, 0x07C, 0x400, 0xFFFC] {
        expect_access(Distributor, 4, offset, 5);
    }
    for offset in [0x004, 0x040, 0x048, 0x050, 0x058, 0x08C, 0xC18, 0x1000] {
        expect_access(Redistributor, 2, offset, 5);
        expect_access(Redistributor, 4, offset, 5);
    }
}

#[test]
fn refusal_6_for_half_words() {
    for offset in [0x42, 0x4A, 0x52, 0x5A, 0x004, 0x006, 0x80, 0x224, 0x226] {
        expect_access(Distributor, 2, offset, 6);
    }
    for offset in [0x80, 0x82, 0x200, 0xC14, 0xC16] {
        expect_access(Redistributor, 2, offset, 6);
    }
    for offset in [0x40, 0x48, 0x50, 0x58] {
        expect_access(Distributor, 2, offset, 0);
    }
}

/// Document 01's table, as bases and counts of words.
fn listed(bases: &[u32], words: u32) -> impl Iterator<Item = u32> + '_ {
    bases
        .iter()
        .flat_map(move |base| (0..words).map(move |n| base + 4 * n))
}

#[test]
fn exactly_the_listed_words_are_listed() {
    let first = [0x080, 0x100, 0x180, 0x200, 0x280, 0x300, 0x380, 0xD00];
    let extended = [
        0x1000, 0x1200, 0x1400, 0x1600, 0x1800, 0x1A00, 0x1C00, 0x3400,
    ];
    let mut dist: Vec<u32> = vec![0x004, 0x040, 0x048, 0x050, 0x058];
    dist.extend(listed(&first, 32));
    dist.extend(listed(&extended, 32));
    dist.extend(listed(&[0xC00, 0x3000], 64));
    let mut redist: Vec<u32> = listed(&first, 3).collect();
    redist.extend(listed(&[0xC00], 6));
    assert_eq!((dist.len(), redist.len()), (645, 30));
    let mut machine = Machine::load(BENCH, &Lent::all_present()).expect("well-formed");
    for (frame, words) in [(Distributor, dist), (Redistributor, redist)] {
        for offset in (0..0x1_0000).step_by(4) {
            let status = if words.contains(&offset) { 0 } else { 5 };
            for side in SIDES {
                let reading = machine.step(read(frame, side, offset));
                assert_eq!(reading.status, status, "{frame:?} {offset:#x}");
                let writing = machine.step(write(frame, side, offset, 0));
                assert_eq!(writing, refused(status), "{frame:?} {offset:#x}");
            }
        }
    }
}
