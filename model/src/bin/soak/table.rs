//! A starting table: its shape, its homes, its lent bytes, and their digest.

use berduzhika_model::random::{next, start, word};
use berduzhika_model::tables::{DIST_PRESENCE, DIST_RECORDS, REDIST_PRESENCE, REDIST_RECORDS};
use berduzhika_model::{Answer, Lent, Machine, Shape, Step};

/// A register word and a bit of it: what a table's steps come back to.
#[derive(Clone, Copy)]
pub struct Home {
    /// 0 for the Distributor's words, 1 for its extended ones, 2 for the Redistributor's.
    pub column: u32,
    pub word: u32,
    pub bit: u32,
}

impl Home {
    /// The INTID of the bit; for Distributor word 31 it may be one that never exists.
    pub fn intid(self) -> u32 {
        let first = match (self.column, self.word) {
            (0, n) => 32 * n,
            (1, n) => 4096 + 32 * n,
            (_, 0) => 0,
            (_, n) => 1024 + 32 * n,
        };
        first + self.bit
    }
}

/// One element more than each table has, for the tables that are lent one too long.
struct Extra {
    dist: u8,
    redist: u8,
    dist_presence: u32,
    redist_presence: u32,
}

/// A starting table and the machine that it became.
pub struct Table {
    pub shape: Shape,
    pub homes: [Home; 4],
    /// Where the draws of its steps begin.
    pub steps_from: u64,
    machine: Machine,
    lent: Lent,
    extra: Extra,
}

impl Table {
    pub fn new(number: u64) -> Table {
        let a = next(start(number));
        let b = next(a);
        let c = next(b);
        let shape = Shape {
            lines: limit(a, 31, 9),
            espi: limit(b, 32, 4),
            eppi: word(c >> 8) % 3,
            mbis: !word(c >> 16).is_multiple_of(4),
        };
        let (homes, x) = draw_homes(shape, c);
        let mut fill = Fill(x);
        let (lent, extra) = fill.tables(word(c >> 32) % 4, word(c >> 24) % 4);
        let machine = Machine::load(shape, &lent).expect("a starting table is well-formed");
        Table {
            shape,
            homes,
            steps_from: fill.0,
            machine,
            lent,
            extra,
        }
    }

    /// One step; `off` says what is off its limit for this step alone, 0 for nothing.
    pub fn take(&mut self, step: Step, off: u32) -> Answer {
        if off == 0 {
            return self.machine.step(step);
        }
        self.settle();
        let (shape, mut wrong) = self.off_limits(off);
        let before = wrong.clone();
        let answer = berduzhika_model::step(shape, &mut wrong, step);
        assert!(wrong == before, "a refused step changed a lent table");
        answer
    }

    /// A digest of every byte of the four tables.
    pub fn digest(&mut self) -> u64 {
        self.settle();
        let h = mix_bytes(1, &self.lent.dist);
        let h = next(h ^ u64::from(self.extra.dist));
        let h = mix_bytes(h, &self.lent.redist);
        let h = next(h ^ u64::from(self.extra.redist));
        let h = mix_words(h, &self.lent.dist_presence);
        let h = next(h ^ u64::from(self.extra.dist_presence));
        let h = mix_words(h, &self.lent.redist_presence);
        next(h ^ u64::from(self.extra.redist_presence))
    }

    /// The record of an INTID that has one.
    pub fn record(&self, intid: u32) -> u8 {
        self.machine.record(intid).unwrap_or(0)
    }

    /// For a model that is wrong on purpose.
    pub fn spoil(&mut self, intid: u32, record: u8) {
        self.machine.set_record(intid, record);
    }

    fn settle(&mut self) {
        let stored = self.machine.store(&mut self.lent);
        stored.expect("the tables keep their lengths");
    }

    /// The shape and the tables with one limit passed: 1 to 8 are the tables, one
    /// element short or long, 9 to 14 the shape's numbers.
    fn off_limits(&self, off: u32) -> (Shape, Lent) {
        let mut shape = self.shape;
        let mut lent = self.lent.clone();
        match off {
            1 => lent.dist.truncate(DIST_RECORDS - 1),
            2 => lent.dist.push(self.extra.dist),
            3 => lent.redist.truncate(REDIST_RECORDS - 1),
            4 => lent.redist.push(self.extra.redist),
            5 => lent.dist_presence.truncate(DIST_PRESENCE - 1),
            6 => lent.dist_presence.push(self.extra.dist_presence),
            7 => lent.redist_presence.truncate(REDIST_PRESENCE - 1),
            8 => lent.redist_presence.push(self.extra.redist_presence),
            9 => shape.lines = 32,
            10 => shape.espi = 33,
            11 => shape.eppi = 3,
            12 => shape.lines = u32::MAX,
            13 => shape.espi = u32::MAX,
            _ => shape.eppi = u32::MAX,
        }
        (shape, lent)
    }
}

/// A shape number: often the largest, sometimes 0 or the bench shape's.
fn limit(x: u64, most: u32, bench: u32) -> u32 {
    match word(x >> 8) % 8 {
        0 | 1 => most,
        2 => 0,
        3 => bench,
        _ => word(x >> 16) % (most + 1),
    }
}

/// Four homes, and the last number drawn for them.
fn draw_homes(shape: Shape, x: u64) -> ([Home; 4], u64) {
    let a = next(x);
    let b = next(a);
    let c = next(b);
    let d = next(c);
    ([a, b, c, d].map(|y| home(shape, y)), d)
}

/// A home: in range more often than not, and often at a limit of the shape. Where
/// the shape has no words of its column, it is mostly one of the Redistributor.
fn home(shape: Shape, x: u64) -> Home {
    let near = word(x >> 12) % 8;
    let any = word(x >> 16);
    let spi = shape.lines > 0 || near == 0;
    let extended = shape.espi > 0 || near == 0;
    let (column, word_number) = match word(x >> 8) % 8 {
        0..=2 if spi => (0, near_limit(near, any, shape.lines)),
        3..=5 if extended => (1, near_limit(near, any, shape.espi.saturating_sub(1))),
        7 => (2, near_limit(near, any, shape.eppi).min(2)),
        _ => (2, 0),
    };
    Home {
        column,
        word: word_number,
        bit: word(x >> 40) % 32,
    }
}

/// A word number up to the last one in range, or the one after it, at most 31.
fn near_limit(near: u32, any: u32, last: u32) -> u32 {
    match near {
        0 => (last + 1).min(31),
        1 | 2 => last,
        _ => any % (last + 1),
    }
}

/// Fills tables from one stream of draws.
struct Fill(u64);

impl Fill {
    /// All four tables, and one element more of each.
    fn tables(&mut self, records: u32, presence: u32) -> (Lent, Extra) {
        let mut dist = self.bytes(DIST_RECORDS + 1, records);
        let mut redist = self.bytes(REDIST_RECORDS + 1, records);
        let mut dist_presence = self.words(DIST_PRESENCE + 1, presence);
        let mut redist_presence = self.words(REDIST_PRESENCE + 1, presence);
        let extra = Extra {
            dist: dist.pop().unwrap_or(0),
            redist: redist.pop().unwrap_or(0),
            dist_presence: dist_presence.pop().unwrap_or(0),
            redist_presence: redist_presence.pop().unwrap_or(0),
        };
        let lent = Lent {
            dist,
            redist,
            dist_presence,
            redist_presence,
        };
        (lent, extra)
    }

    /// Records: mode 0 all 0, mode 1 all Non-secure, else any byte.
    fn bytes(&mut self, count: usize, mode: u32) -> Vec<u8> {
        let mut bytes = Vec::with_capacity(count);
        for _ in 0..count {
            self.0 = next(self.0);
            let any = (self.0 >> 24) as u8;
            bytes.push(match mode {
                0 => 0,
                1 => any | 64,
                _ => any,
            });
        }
        bytes
    }

    /// Presence: mode 0 all present, mode 1 about half, else three of four.
    fn words(&mut self, count: usize, mode: u32) -> Vec<u32> {
        let mut words = Vec::with_capacity(count);
        for _ in 0..count {
            self.0 = next(self.0);
            let any = word(self.0 >> 8);
            words.push(match mode {
                0 => u32::MAX,
                1 => any,
                _ => any | word(self.0 >> 32),
            });
        }
        words
    }
}

/// Eight bytes at a time, the lowest first; what is left over one by one.
fn mix_bytes(from: u64, bytes: &[u8]) -> u64 {
    let chunks = bytes.chunks_exact(8);
    let rest = chunks.remainder();
    let whole = chunks.fold(from, |h, chunk| {
        let eight = chunk.iter().rev().fold(0, |w, b| w << 8 | u64::from(*b));
        next(h ^ eight)
    });
    rest.iter().fold(whole, |h, b| next(h ^ u64::from(*b)))
}

fn mix_words(from: u64, words: &[u32]) -> u64 {
    words.iter().fold(from, |h, w| next(h ^ u64::from(*w)))
}
