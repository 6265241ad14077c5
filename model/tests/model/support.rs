//! A bench: a shape and lent tables, stepped two ways at once.

use berduzhika_model::{Answer, Frame, Lent, Machine, Shape, Side, Step};

pub use Frame::{Distributor, Redistributor};
pub use Side::{NonSecure, Secure};

pub const SIDES: [Side; 2] = [Secure, NonSecure];

/// "Bench shape: lines 9, espi 4, eppi 1, mbis yes, all present."
pub const BENCH: Shape = Shape {
    lines: 9,
    espi: 4,
    eppi: 1,
    mbis: true,
};

/// The largest shape.
pub const LARGEST: Shape = Shape {
    lines: 31,
    espi: 32,
    eppi: 2,
    mbis: true,
};

pub const DONE: Answer = Answer {
    status: 0,
    value: 0,
};

pub fn value(value: u32) -> Answer {
    Answer { status: 0, value }
}

pub fn refused(status: u32) -> Answer {
    Answer { status, value: 0 }
}

/// The record byte of an INTID, from document 01's slot numbers.
pub fn record(lent: &mut Lent, intid: u32) -> &mut u8 {
    let m = intid as usize;
    if m < 32 {
        &mut lent.redist[m]
    } else if m < 1020 {
        &mut lent.dist[m - 32]
    } else if (1056..1120).contains(&m) {
        &mut lent.redist[32 + (m - 1056)]
    } else if (4096..5120).contains(&m) {
        &mut lent.dist[988 + (m - 4096)]
    } else {
        panic!("{intid} has no record")
    }
}

/// Tables whose records are all one byte, all interrupts present.
pub fn filled(byte: u8) -> Lent {
    let mut lent = Lent::all_present();
    lent.dist.fill(byte);
    lent.redist.fill(byte);
    lent
}

pub fn write(frame: Frame, side: Side, offset: u32, value: u32) -> Step {
    access(frame, side, true, 4, offset, value)
}

pub fn read(frame: Frame, side: Side, offset: u32) -> Step {
    access(frame, side, false, 4, offset, 0)
}

pub fn access(frame: Frame, side: Side, write: bool, width: u32, offset: u32, value: u32) -> Step {
    Step::Access {
        frame,
        side,
        write,
        width,
        offset,
        value,
    }
}

pub fn wire(intid: u32, level: bool) -> Step {
    Step::Wire { intid, level }
}

pub fn activate(side: Side, intid: u32) -> Step {
    Step::Activate { side, intid }
}

pub fn deactivate(side: Side, intid: u32) -> Step {
    Step::Deactivate { side, intid }
}

/// Lent tables, what they should be, and a machine that was loaded once.
pub struct Bench {
    shape: Shape,
    lent: Lent,
    expected: Lent,
    machine: Machine,
}

impl Bench {
    pub fn new(shape: Shape, lent: Lent) -> Bench {
        let machine = Machine::load(shape, &lent).expect("tables and shape within limits");
        Bench {
            shape,
            expected: lent.clone(),
            lent,
            machine,
        }
    }

    /// Document 01's bench with some records named, the others one byte.
    pub fn with(others: u8, named: &[(u32, u8)]) -> Bench {
        Bench::shaped(BENCH, others, named)
    }

    pub fn shaped(shape: Shape, others: u8, named: &[(u32, u8)]) -> Bench {
        let mut lent = filled(others);
        for (intid, byte) in named {
            *record(&mut lent, *intid) = *byte;
        }
        Bench::new(shape, lent)
    }

    /// Takes a step on the tables and on the machine, which must agree.
    #[track_caller]
    pub fn step(&mut self, step: Step) -> Answer {
        let answer = berduzhika_model::step(self.shape, &mut self.lent, step);
        assert_eq!(self.machine.step(step), answer, "machine and tables differ");
        let mut stored = self.lent.clone();
        stored.dist.fill(0xEE);
        stored.redist.fill(0xEE);
        assert_eq!(self.machine.store(&mut stored), Ok(()));
        assert_eq!(stored, self.lent, "machine and tables differ");
        answer
    }

    /// Asks that the step is done with 0 and that the named records, and no
    /// others, and no presence word, are now different from what was last asked.
    #[track_caller]
    pub fn does(&mut self, step: Step, named: &[(u32, u8)]) {
        assert_eq!(self.step(step), DONE);
        self.holds(named);
    }

    /// Asks for the answer, and that no table has changed.
    #[track_caller]
    pub fn only_answers(&mut self, step: Step, answer: Answer) {
        assert_eq!(self.step(step), answer);
        self.holds(&[]);
    }

    #[track_caller]
    fn holds(&mut self, named: &[(u32, u8)]) {
        for (intid, byte) in named {
            *record(&mut self.expected, *intid) = *byte;
            assert_eq!(self.machine.record(*intid), Some(*byte), "record {intid}");
        }
        assert!(self.lent == self.expected, "{}", self.difference());
    }

    fn difference(&mut self) -> String {
        let numbers = (0..1020).chain(1056..1120).chain(4096..5120);
        let mut found = String::from("records that differ:");
        for intid in numbers {
            let now = *record(&mut self.lent, intid);
            let wanted = *record(&mut self.expected, intid);
            if now != wanted {
                found += &format!(" {intid}: {now:02X} for {wanted:02X}");
            }
        }
        found
    }
}

/// Marsaglia's xorshift: plain, and the same on every run.
pub struct Random(pub u64);

impl Random {
    pub fn next(&mut self) -> u32 {
        self.0 ^= self.0 << 13;
        self.0 ^= self.0 >> 7;
        self.0 ^= self.0 << 17;
        (self.0 >> 16) as u32
    }

    pub fn below(&mut self, bound: u32) -> u32 {
        self.next() % bound
    }

    pub fn bit(&mut self) -> bool {
        self.next() & 1 == 1
    }

    /// Tables with any records and any presence words.
    pub fn tables(&mut self) -> Lent {
        let mut lent = Lent::all_present();
        lent.dist.fill_with(|| self.next() as u8);
        lent.redist.fill_with(|| self.next() as u8);
        lent.dist_presence.fill_with(|| self.next());
        lent.redist_presence.fill_with(|| self.next());
        lent
    }
}
