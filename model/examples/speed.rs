//! Measures the model: random steps on one machine, steps a second, and a digest
//! of all answers and records so that no step can be left out.

use std::time::Instant;

use berduzhika_model::{Frame, Lent, Machine, Shape, Side, Step};

const STEPS: u64 = 20_000_000;

/// Marsaglia's xorshift: plain, fast, and the same on every run.
struct Random(u64);

impl Random {
    fn next(&mut self) -> u32 {
        self.0 ^= self.0 << 13;
        self.0 ^= self.0 >> 7;
        self.0 ^= self.0 << 17;
        (self.0 >> 16) as u32
    }

    fn below(&mut self, bound: u32) -> u32 {
        self.next() % bound
    }
}

/// Family bases of the Distributor's two columns; the last line is ICFGR.
const BASES: [u32; 18] = [
    0x080, 0x100, 0x180, 0x200, 0x280, 0x300, 0x380, 0xD00, 0x1000, 0x1200, 0x1400, 0x1600, 0x1800,
    0x1A00, 0x1C00, 0x3400, //
    0xC00, 0x3000,
];

fn any_step(random: &mut Random) -> Step {
    let side = match random.below(2) {
        0 => Side::Secure,
        _ => Side::NonSecure,
    };
    let intid = match random.below(2) {
        0 => random.below(1056),
        _ => 4096 + random.below(1056),
    };
    match random.below(16) {
        0 => Step::Wire {
            intid,
            level: random.below(2) == 1,
        },
        1 => Step::Activate { side, intid },
        2 => Step::Deactivate { side, intid },
        kind => Step::Access {
            frame: match kind {
                3 | 4 => Frame::Redistributor,
                _ => Frame::Distributor,
            },
            side,
            write: random.below(2) == 1,
            width: 4,
            offset: match kind {
                3 | 4 => BASES[random.below(8) as usize] + 4 * random.below(3),
                5 => 0x40 + 8 * random.below(4),
                _ => BASES[random.below(18) as usize] + 4 * random.below(32),
            },
            value: random.next(),
        },
    }
}

fn main() {
    let shape = Shape {
        lines: 31,
        espi: 32,
        eppi: 2,
        mbis: true,
    };
    let mut machine = Machine::load(shape, &Lent::all_present()).expect("the largest shape");
    let mut random = Random(0x9E37_79B9_7F4A_7C15);
    let mut digest: u64 = 0;
    let mut done: u64 = 0;
    let start = Instant::now();
    for _ in 0..STEPS {
        let answer = machine.step(any_step(&mut random));
        done += u64::from(answer.status == 0);
        let seen = u64::from(answer.status) << 32 | u64::from(answer.value);
        digest = (digest ^ seen).wrapping_mul(0x100_0000_01B3);
    }
    let seconds = start.elapsed().as_secs_f64();
    for (intid, record) in machine.records() {
        let seen = u64::from(intid) << 8 | u64::from(record);
        digest = (digest ^ seen).wrapping_mul(0x100_0000_01B3);
    }
    println!("steps={STEPS} done={done} digest={digest:016x}");
    println!("{:.0} steps a second", STEPS as f64 / seconds);
}
