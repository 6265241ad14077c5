//! Inputs of the bench replay for measuring, always the same: `mix KIND STEPS
//! [SHAPE]` to standard output (docs/PERFORMANCE.md).
//!
//! KIND is mixed, first, refused, typer, message, or a family and a way, as
//! ispendr-write.
//! SHAPE is bench (as document 01 has it), smallest or largest.

use std::io::{self, BufWriter, Write};
use std::process::ExitCode;

use berduzhika_model::random::Random;

/// The families and their first words: Distributor, extended, Redistributor.
const FAMILIES: [(&str, [u32; 3]); 9] = [
    ("igroupr", [0x080, 0x1000, 0x080]),
    ("isenabler", [0x100, 0x1200, 0x100]),
    ("icenabler", [0x180, 0x1400, 0x180]),
    ("ispendr", [0x200, 0x1600, 0x200]),
    ("icpendr", [0x280, 0x1800, 0x280]),
    ("isactiver", [0x300, 0x1A00, 0x300]),
    ("icactiver", [0x380, 0x1C00, 0x380]),
    ("igrpmodr", [0xD00, 0x3400, 0xD00]),
    ("icfgr", [0xC00, 0x3000, 0xC00]),
];

/// One access as text, but for its value.
struct Access {
    write: bool,
    redist: bool,
    secure: bool,
    width: u32,
    offset: u32,
}

/// Which words the accesses of a file go to.
#[derive(Clone, Copy)]
struct Shape {
    lines: u32,
    espi: u32,
    eppi: u32,
}

fn shape_of(name: Option<&str>) -> Option<Shape> {
    let (lines, espi, eppi) = match name {
        None | Some("bench") => (9, 4, 1),
        Some("smallest") => (0, 0, 0),
        Some("largest") => (31, 32, 2),
        Some(_) => return None,
    };
    Some(Shape { lines, espi, eppi })
}

/// A word of a family: half in the Distributor, a quarter each in its extended
/// words and in the Redistributor; within the shape where it has any.
fn word(random: &mut Random, shape: Shape, family: usize) -> (bool, u32) {
    let (column, words) = match random.below(4) {
        0 | 1 => (0, shape.lines + 1),
        2 => (1, shape.espi.max(1)),
        _ => (2, shape.eppi + 1),
    };
    let number = match family {
        8 => random.below(2 * words),
        _ => random.below(words),
    };
    (column == 2, FAMILIES[family].1[column] + 4 * number)
}

/// An access of a family; three of four are of the Non-secure side.
fn family_access(random: &mut Random, shape: Shape, family: usize, write: bool) -> Access {
    let (redist, offset) = word(random, shape, family);
    Access {
        write,
        redist,
        secure: random.once_in(4),
        width: 4,
        offset,
    }
}

/// A fixed place of the Distributor: TYPER, a message register or an unlisted word.
fn place(random: &mut Random, write: bool, width: u32, offset: u32) -> Access {
    Access {
        write,
        redist: false,
        secure: random.once_in(4),
        width,
        offset,
    }
}

fn message(random: &mut Random) -> Access {
    let width = if random.once_in(2) { 2 } else { 4 };
    let offset = 0x40 + 8 * random.below(4);
    place(random, true, width, offset)
}

/// Of 32 accesses one is TYPER's, two are messages, the others of any family; half read.
fn mixed(random: &mut Random, shape: Shape) -> Access {
    match random.below(32) {
        0 => place(random, false, 4, 4),
        1 | 2 => message(random),
        _ => {
            let family = random.below(9) as usize;
            let write = random.once_in(2);
            family_access(random, shape, family, write)
        }
    }
}

/// Any family at Redistributor word 0, whose interrupts are in every shape's range.
fn first(random: &mut Random) -> Access {
    let family = random.below(9) as usize;
    let word = if family == 8 { random.below(2) } else { 0 };
    Access {
        write: random.once_in(2),
        redist: true,
        secure: random.once_in(4),
        width: 4,
        offset: FAMILIES[family].1[2] + 4 * word,
    }
}

/// The accesses of one file.
#[derive(Clone, Copy)]
enum Kind {
    Mixed,
    First,
    Refused,
    Typer,
    Message,
    Family(usize, bool),
}

fn kind_of(name: &str) -> Option<Kind> {
    match name {
        "mixed" => return Some(Kind::Mixed),
        "first" => return Some(Kind::First),
        "refused" => return Some(Kind::Refused),
        "typer" => return Some(Kind::Typer),
        "message" => return Some(Kind::Message),
        _ => {}
    }
    let (family, way) = name.split_once('-')?;
    let family = FAMILIES.iter().position(|known| known.0 == family)?;
    match way {
        "read" => Some(Kind::Family(family, false)),
        "write" => Some(Kind::Family(family, true)),
        _ => None,
    }
}

fn next(random: &mut Random, shape: Shape, kind: Kind) -> Access {
    match kind {
        Kind::Mixed => mixed(random, shape),
        Kind::First => first(random),
        // 0x10C0 is listed nowhere: refusal 5, so that the text is all the work.
        Kind::Refused => place(random, true, 4, 0x10C0),
        Kind::Typer => place(random, false, 4, 4),
        Kind::Message => message(random),
        Kind::Family(family, write) => family_access(random, shape, family, write),
    }
}

fn step(out: &mut impl Write, access: &Access, value: u32) -> io::Result<()> {
    let op = if access.write { "write" } else { "read" };
    let frame = if access.redist { "redist" } else { "dist" };
    let sec = if access.secure { "s" } else { "ns" };
    write!(out, "op={op}\nframe={frame}\nsec={sec}\n")?;
    write!(out, "width={}\noffset={}\n", access.width, access.offset)?;
    writeln!(out, "value={value}")
}

/// All 67 IGROUPR words, the Distributor's, the extended ones, the Redistributor's.
fn grouping(number: u32) -> Access {
    let (redist, offset) = match number {
        0..=31 => (false, 0x080 + 4 * number),
        32..=63 => (false, 0x1000 + 4 * (number - 32)),
        _ => (true, 0x080 + 4 * (number - 64)),
    };
    Access {
        write: true,
        redist,
        secure: true,
        width: 4,
        offset,
    }
}

/// The first 67 steps make every other interrupt Non-secure; then come the kind's.
fn write(kind: Kind, steps: u64, shape: Shape) -> io::Result<()> {
    let mut out = BufWriter::with_capacity(1 << 16, io::stdout().lock());
    let mut random = Random::new(1);
    write!(out, "lines={}\nespi={}\n", shape.lines, shape.espi)?;
    write!(out, "eppi={}\nmbis=1\n", shape.eppi)?;
    for number in 0..steps {
        if number < 67 {
            step(&mut out, &grouping(number as u32), 0x5555_5555)?;
            continue;
        }
        let access = next(&mut random, shape, kind);
        step(&mut out, &access, random.any())?;
    }
    out.flush()
}

fn main() -> ExitCode {
    let words: Vec<String> = std::env::args().skip(1).collect();
    let kind = words.first().and_then(|word| kind_of(word));
    let steps = words.get(1).and_then(|word| word.parse().ok());
    let shape = shape_of(words.get(2).map(String::as_str));
    let (Some(kind), Some(steps), Some(shape)) = (kind, steps, shape) else {
        eprintln!("usage: mix KIND STEPS [bench|smallest|largest]");
        return ExitCode::FAILURE;
    };
    match write(kind, steps, shape) {
        Ok(()) => ExitCode::SUCCESS,
        // A reader that has seen enough, as a replay has after 1,000,000 steps.
        Err(error) if error.kind() == io::ErrorKind::BrokenPipe => ExitCode::SUCCESS,
        Err(error) => {
            eprintln!("mix: {error}");
            ExitCode::FAILURE
        }
    }
}
