//! Demands 1 to 3 on long random runs: what a refusal leaves, what no Non-secure
//! step may touch, and that Secure records are not seen.

use super::support::*;
use berduzhika_model::{Frame, Lent, Machine, Shape, Side, Step};

const BASES: [u32; 9] = [
    0x080, 0x100, 0x180, 0x200, 0x280, 0x300, 0x380, 0xD00, 0xC00,
];
const EXTENDED: [u32; 9] = [
    0x1000, 0x1200, 0x1400, 0x1600, 0x1800, 0x1A00, 0x1C00, 0x3400, 0x3000,
];

fn any_shape(random: &mut Random) -> Shape {
    Shape {
        lines: random.below(32),
        espi: random.below(33),
        eppi: random.below(3),
        mbis: random.below(4) > 0,
    }
}

fn any_intid(random: &mut Random) -> u32 {
    match random.below(8) {
        0..=2 => random.below(1100),
        3 | 4 => 4080 + random.below(1060),
        5 => 1050 + random.below(80),
        6 => random.below(40),
        _ => random.next(),
    }
}

/// Mostly listed words of the frame, some just past a family, some anywhere.
fn any_offset(random: &mut Random, frame: Frame) -> u32 {
    let family = random.below(9) as usize;
    match (random.below(12), frame) {
        (0, _) => random.below(0x1_0008),
        (1, _) => random.next(),
        (_, Redistributor) => BASES[family] + 4 * random.below(7),
        (2..=6, Distributor) => BASES[family] + 4 * random.below(33),
        (7..=10, Distributor) => EXTENDED[family] + 4 * random.below(33),
        (_, Distributor) => 0x40 + 8 * random.below(4),
    }
}

fn any_access(random: &mut Random, side: Side) -> Step {
    let frame = [Distributor, Distributor, Redistributor][random.below(3) as usize];
    let width = [4, 4, 4, 4, 4, 4, 2, 1][random.below(8) as usize];
    let offset = any_offset(random, frame);
    let value = match random.below(3) {
        0 => any_intid(random),
        _ => random.next(),
    };
    access(frame, side, random.bit(), width, offset, value)
}

fn any_step(random: &mut Random, side: Side) -> Step {
    let intid = any_intid(random);
    match random.below(10) {
        0 => Step::Activate { side, intid },
        1 => Step::Deactivate { side, intid },
        2 => Step::Wire {
            intid,
            level: random.bit(),
        },
        3 if random.below(500) == 0 => Step::Reset,
        _ => any_access(random, side),
    }
}

/// In range and present, computed from the tables.
fn implemented(shape: Shape, lent: &Lent, intid: u32) -> bool {
    let m = intid as usize;
    let (word, reached) = match intid {
        0..=31 => (lent.redist_presence[0], true),
        32..=1019 => (
            lent.dist_presence[(m - 32) / 32],
            intid <= 32 * shape.lines + 31,
        ),
        1056..=1119 => (
            lent.redist_presence[1 + (m - 1056) / 32],
            intid < 1056 + 32 * shape.eppi,
        ),
        _ => (
            lent.dist_presence[31 + (m - 4096) / 32],
            intid < 4096 + 32 * shape.espi,
        ),
    };
    reached && word & (1 << (intid % 32)) != 0
}

fn non_secure(byte: u8) -> bool {
    byte & 0x40 != 0
}

/// What one step may have done, seen on all records.
#[track_caller]
fn check(shape: Shape, lent: &Lent, before: &Machine, after: &Machine, step: Step, status: u32) {
    let from_non_secure = matches!(
        step,
        Step::Access {
            side: NonSecure,
            ..
        } | Step::Activate {
            side: NonSecure,
            ..
        } | Step::Deactivate {
            side: NonSecure,
            ..
        }
    );
    let reading = matches!(step, Step::Access { write: false, .. });
    let changed: Vec<(u32, u8)> = before
        .records()
        .zip(after.records())
        .filter(|(was, is)| was != is)
        .map(|(was, _)| was)
        .collect();
    if status != 0 || reading {
        assert!(changed.is_empty(), "{step:?} changed {changed:?}");
    }
    for (intid, was) in changed {
        if step != Step::Reset {
            assert!(implemented(shape, lent, intid), "{step:?} changed {intid}");
        }
        assert!(!from_non_secure || non_secure(was), "{step:?}: {intid}");
    }
}

#[test]
fn refusals_missing_records_and_secure_records() {
    let mut random = Random(0x1234_5678_9ABC_DEF1);
    let mut done = 0;
    let mut moved = 0;
    for _ in 0..40 {
        let shape = any_shape(&mut random);
        let lent = random.tables();
        let mut machine = Machine::load(shape, &lent).expect("well-formed");
        for _ in 0..500 {
            let side = SIDES[random.below(2) as usize];
            let step = any_step(&mut random, side);
            let before = machine.clone();
            let answer = machine.step(step);
            assert!(answer.status == 0 || answer.value == 0);
            check(shape, &lent, &before, &machine, step, answer.status);
            done += u32::from(answer.status == 0);
            moved += u32::from(machine != before);
        }
    }
    // Of 20,000 steps: the run is no run of refusals or of steps without effect.
    assert!(done > 6000 && moved > 1000, "{done} done, {moved} moved");
}

#[test]
fn a_machine_and_single_steps_on_tables_agree() {
    let mut random = Random(0xFEDC_BA98_7654_3211);
    for _ in 0..20 {
        let mut bench = Bench::new(any_shape(&mut random), random.tables());
        let mut answers = 0;
        for _ in 0..200 {
            let side = SIDES[random.below(2) as usize];
            let step = any_step(&mut random, side);
            // The bench itself compares the two.
            answers += u32::from(bench.step(step).status == 0);
        }
        assert!(answers > 50, "{answers} steps done");
    }
}

/// Tables in which no Secure interrupt exists: the same, with their presence bits cleared.
fn without_secure(lent: &Lent) -> Lent {
    let mut bare = lent.clone();
    for intid in (0..1020).chain(1056..1120).chain(4096..5120) {
        if non_secure(*record(&mut bare, intid)) {
            continue;
        }
        let m = intid as usize;
        let word = match intid {
            0..=31 => &mut bare.redist_presence[0],
            32..=1019 => &mut bare.dist_presence[m / 32 - 1],
            1056..=1119 => &mut bare.redist_presence[1 + (m - 1056) / 32],
            _ => &mut bare.dist_presence[31 + (m - 4096) / 32],
        };
        *word &= !(1 << (intid % 32));
    }
    bare
}

/// The same grouping and Non-secure records, all other facts of Secure records anew.
fn other_secure(random: &mut Random, lent: &Lent) -> Lent {
    let mut other = lent.clone();
    for byte in other.dist.iter_mut().chain(other.redist.iter_mut()) {
        if !non_secure(*byte) {
            *byte = (*byte & 0xC0) | (random.next() as u8 & 0x3F);
        }
    }
    other
}

/// A Non-secure step: its accesses and events, and wires of Non-secure interrupts.
fn non_secure_step(random: &mut Random, machine: &Machine) -> Step {
    let step = any_step(random, NonSecure);
    match step {
        Step::Wire { intid, .. } if machine.record(intid).is_some_and(non_secure) => step,
        Step::Wire { .. } | Step::Reset => any_access(random, NonSecure),
        _ => step,
    }
}

/// A private Secure step: an event of a Secure interrupt, or a read.
fn private_step(random: &mut Random, machine: &Machine) -> Step {
    // Below 8192 a message register names the very number, so that what is
    // judged Secure here is what the write names.
    let intid = any_intid(random) % 8192;
    let offset = any_offset(random, Distributor);
    let level = random.bit();
    let side = Secure;
    if machine.record(intid).is_some_and(non_secure) {
        return read(Distributor, side, offset);
    }
    match random.below(4) {
        0 => Step::Wire { intid, level },
        1 => Step::Activate { side, intid },
        2 => Step::Deactivate { side, intid },
        _ => write(Distributor, side, 0x50, intid),
    }
}

#[test]
fn secure_records_are_not_seen() {
    let mut random = Random(0x0F1E_2D3C_4B5A_6971);
    let mut shown = 0;
    for _ in 0..40 {
        let shape = any_shape(&mut random);
        let mut lent = random.tables();
        lent.dist_presence.iter_mut().for_each(|word| *word |= 0x5A);
        let tables = [
            other_secure(&mut random, &lent),
            without_secure(&lent),
            lent.clone(),
        ];
        let mut machines = tables.map(|lent| Machine::load(shape, &lent).expect("well-formed"));
        for _ in 0..1000 {
            for machine in &mut machines {
                let step = private_step(&mut random, machine);
                machine.step(step);
            }
            let step = non_secure_step(&mut random, &machines[2]);
            let answers = machines.each_mut().map(|machine| machine.step(step));
            assert_eq!(answers[0], answers[2], "{step:?}");
            assert_eq!(answers[1], answers[2], "{step:?}");
            shown += u32::from(answers[2].value != 0);
        }
        let kept = |machine: &Machine| -> Vec<(u32, u8)> {
            machine
                .records()
                .filter(|(_, byte)| non_secure(*byte))
                .collect()
        };
        assert_eq!(kept(&machines[0]), kept(&machines[2]));
        assert_eq!(kept(&machines[1]), kept(&machines[2]));
    }
    assert!(shown > 500, "only {shown} answers showed anything");
}

#[test]
fn a_set_pending_write_reads_back_exactly() {
    let columns: [(Frame, u32, u32, u32); 4] = [
        (Distributor, 0x204, 31, 32),
        (Distributor, 0x1600, 32, 4096),
        (Redistributor, 0x200, 1, 0),
        (Redistributor, 0x204, 2, 1056),
    ];
    let mut random = Random(0x2468_ACE0_1357_9BDF);
    for _ in 0..20 {
        let shape = any_shape(&mut random);
        let mut lent = random.tables();
        let mut machine = Machine::load(shape, &lent).expect("well-formed");
        for (frame, base, words, first) in columns {
            for n in 0..words {
                let reading = read(frame, NonSecure, base + 4 * n);
                let old = machine.step(reading);
                let written = random.next();
                let answer = machine.step(write(frame, NonSecure, base + 4 * n, written));
                assert_eq!(answer, DONE);
                let numbers = (0..32).filter(|x| first + 32 * n + x < 1020 || first >= 1056);
                let owned = numbers.fold(0, |owned, x| {
                    let intid = first + 32 * n + x;
                    let owns =
                        implemented(shape, &lent, intid) && non_secure(*record(&mut lent, intid));
                    owned | u32::from(owns) << x
                });
                let now = machine.step(reading);
                assert_eq!(now, value(old.value | written & owned));
            }
        }
    }
}
