//! What a step asks for. Each step takes four numbers of the stream, whatever it is.

use berduzhika_model::random::{next, word};
use berduzhika_model::{Frame, Shape, Side, Step};

use crate::table::{Home, Table};

/// A step, what it is counted as, and what is off its limit for it.
pub struct Drawn {
    pub step: Step,
    /// 0 to 26 the families by column, 27 TYPER, 28 to 31 the message registers,
    /// 32 anywhere, 33 wire, 34 activate, 35 deactivate, 36 reset.
    pub class: usize,
    pub off: u32,
    /// The stream after this step.
    pub x: u64,
}

const TYPER: usize = 27;
const MESSAGE: usize = 28;
const ANYWHERE: usize = 32;
const WIRE: usize = 33;
const ACTIVATE: usize = 34;
const DEACTIVATE: usize = 35;
const RESET: usize = 36;
pub const CLASSES: usize = 37;

/// First words by column, as document 01's table has them; ICFGR is the last of each.
const BASES: [u32; 27] = [
    0x080, 0x100, 0x180, 0x200, 0x280, 0x300, 0x380, 0xD00, 0xC00, //
    0x1000, 0x1200, 0x1400, 0x1600, 0x1800, 0x1A00, 0x1C00, 0x3400, 0x3000, //
    0x080, 0x100, 0x180, 0x200, 0x280, 0x300, 0x380, 0xD00, 0xC00,
];

const INTIDS: [u32; 24] = [
    0, 15, 16, 31, 32, 319, 320, 1019, 1020, 1023, 1055, 1056, 1087, 1088, 1119, 1120, 4095, 4096,
    4223, 4224, 5119, 5120, 65836, 4294967295,
];

const OFFSETS: [u32; 20] = [
    0x0000, 0xFFFC, 0x10000, 0x10001, 0x226, 0x224, 0x40, 0x41, 0x42, 0x44, 0x48, 0x50, 0x58, 0x5A,
    0x08C, 0xC14, 0xC18, 0xD0C, 4294967292, 4294967295,
];

const WIDTHS: [u32; 8] = [2, 4, 4, 2, 1, 0, 3, 8];

/// The four numbers of a step.
struct Numbers {
    a: u64,
    b: u64,
    c: u64,
    e: u64,
}

pub fn draw(table: &Table, x: u64) -> Drawn {
    let a = next(x);
    let b = next(a);
    let c = next(b);
    let e = next(c);
    let n = Numbers { a, b, c, e };
    let home = table.homes[(word(a >> 4) % 4) as usize];
    let (class, step) = request(table.shape, home, &n);
    let off = word(e >> 40) % 512;
    Drawn {
        step,
        class,
        off: if off < 14 { off + 1 } else { 0 },
        x: e,
    }
}

/// Of 64 steps about 8 are wires, 6 activations, 5 deactivations, one TYPER or (1
/// in 32) reset, 6 messages, 4 anywhere, 34 words of a family.
fn request(shape: Shape, home: Home, n: &Numbers) -> (usize, Step) {
    let side = side(n);
    let intid = named(shape, home, n);
    match word(n.a >> 8) % 64 {
        0..=7 => {
            let level = word(n.e >> 8) % 2 == 1;
            (WIRE, Step::Wire { intid, level })
        }
        8..=13 => (ACTIVATE, Step::Activate { side, intid }),
        14..=18 => (DEACTIVATE, Step::Deactivate { side, intid }),
        19 if word(n.a >> 24).is_multiple_of(32) => (RESET, Step::Reset),
        19 => (TYPER, access(n, Frame::Distributor, 4, 4, word(n.c >> 8))),
        20..=25 => message(intid, n),
        26..=29 => (ANYWHERE, anywhere(n)),
        _ => family(home, n),
    }
}

fn side(n: &Numbers) -> Side {
    match word(n.a >> 16) % 2 {
        0 => Side::Secure,
        _ => Side::NonSecure,
    }
}

fn access(n: &Numbers, frame: Frame, width: u32, offset: u32, value: u32) -> Step {
    Step::Access {
        frame,
        side: side(n),
        write: word(n.a >> 20) % 8 >= 3,
        width,
        offset,
        value,
    }
}

/// An INTID: the home's (5 of 8), one of its word, an edge, or one near the shape's limits.
fn named(shape: Shape, home: Home, n: &Numbers) -> u32 {
    match word(n.c >> 4) % 8 {
        0..=4 => home.intid(),
        5 => {
            let bit = word(n.b >> 24) % 32;
            Home { bit, ..home }.intid()
        }
        6 => INTIDS[(word(n.b >> 24) % 24) as usize],
        _ => near(shape, word(n.b >> 32) % 8, word(n.e >> 16)),
    }
}

fn near(shape: Shape, which: u32, any: u32) -> u32 {
    match which {
        0 => 32 * shape.lines + 31,
        1 => 32 * shape.lines + 32,
        2 => 1055 + 32 * shape.eppi,
        3 => 1056 + 32 * shape.eppi,
        4 => 4095 + 32 * shape.espi,
        5 => 4096 + 32 * shape.espi,
        6 => any,
        _ => any % 5200,
    }
}

/// SETSPI and CLRSPI, with anything in the value's bits above 12.
fn message(intid: u32, n: &Numbers) -> (usize, Step) {
    let which = word(n.b >> 4) % 4;
    let width = match word(n.b >> 8) % 2 {
        0 => 2,
        _ => 4,
    };
    let value = (intid % 8192) | (word(n.c >> 8) & 0xFFFF_E000);
    let step = access(n, Frame::Distributor, width, 0x40 + 8 * which, value);
    (MESSAGE + which as usize, step)
}

/// Any width at any offset of any frame; most are refused.
fn anywhere(n: &Numbers) -> Step {
    let frame = match word(n.b >> 4) % 2 {
        0 => Frame::Distributor,
        _ => Frame::Redistributor,
    };
    let any = word(n.c >> 8);
    let offset = match word(n.b >> 8) % 32 {
        which @ 0..=19 => OFFSETS[which as usize],
        20..=23 => any % 65536,
        24..=27 => 4 * (any % 4096),
        28..=29 => 65536 + any % 65536,
        _ => any,
    };
    let width = match word(n.b >> 16) % 16 {
        which @ 0..=7 => WIDTHS[which as usize],
        8 => word(n.e >> 8),
        _ => 4,
    };
    access(n, frame, width, offset, word(n.e >> 24))
}

/// A word of a family: the home's, or (1 in 16) any, an unlisted one of the
/// Redistributor among them; 1 in 64 at width 2.
fn family(home: Home, n: &Numbers) -> (usize, Step) {
    let family = word(n.b >> 4) % 9;
    let elsewhere = word(n.b >> 8).is_multiple_of(16);
    let at = if elsewhere { wander(n, home) } else { home };
    let frame = match at.column {
        2 => Frame::Redistributor,
        _ => Frame::Distributor,
    };
    let class = at.column * 9 + family;
    let (word_number, bit) = match family {
        8 => (2 * at.word + at.bit / 16, 2 * (at.bit % 16) + 1),
        _ => (at.word, at.bit),
    };
    let offset = BASES[class as usize] + 4 * word_number;
    let width = match word(n.b >> 40) % 64 {
        0 => 2,
        _ => 4,
    };
    let value = written(1 << bit, n);
    let step = access(n, frame, width, offset, value);
    (class as usize, step)
}

fn wander(n: &Numbers, home: Home) -> Home {
    let any = word(n.b >> 20);
    match word(n.b >> 16) % 3 {
        2 => Home {
            column: 2,
            word: any % 4,
            ..home
        },
        column => Home {
            column,
            word: any % 32,
            ..home
        },
    }
}

/// A value that mostly has the home's bit.
fn written(bit: u32, n: &Numbers) -> u32 {
    let any = word(n.c >> 8);
    match word(n.c >> 44) % 8 {
        0 => bit,
        1 => u32::MAX,
        2 => 0,
        3 => any & !bit,
        _ => any | bit,
    }
}
