//! Random inputs of the bench replay, good and damaged: `texts FIRST COUNT FOLDER`
//! writes text FIRST and those after it, each made from its own number alone, to
//! files of that name. Both replays are to say the same of each.

use std::io::Write;
use std::process::ExitCode;
use std::{env, fs};

use berduzhika_model::random::Random;

/// First words of the families, and a few other offsets.
const OFFSETS: [u32; 24] = [
    0x080, 0x100, 0x180, 0x200, 0x280, 0x300, 0x380, 0xC00, 0xD00, 0x1000, 0x1200, 0x1400, 0x1600,
    0x1800, 0x1A00, 0x1C00, 0x3000, 0x3400, 0x004, 0x040, 0x048, 0x050, 0x058, 0xFFFC,
];

/// Numbers past the largest, and some that are none.
const NO_NUMBERS: [&str; 10] = [
    "4294967296",
    "4294967300",
    "9999999999",
    "42949672950",
    "18446744073709551616",
    "",
    "+1",
    "-1",
    "0x10",
    "1 ",
];

/// Lines that a text may get in the place of one of its own.
const LINES: [&str; 14] = [
    "", " ", "lines=32", "lines=31", "espi=33", "eppi=3", "mbis=2", "op=Read", "op=reads",
    "frame=", "sec=n", "sec=ss", "end=0", "value=0 ",
];

type Lines = Vec<Vec<u8>>;

fn line(key: &str, value: impl ToString) -> Vec<u8> {
    let mut line = key.as_bytes().to_vec();
    line.push(b'=');
    line.extend(value.to_string().bytes());
    line
}

/// A shape number within its limit, often at it.
fn limit(random: &mut Random, most: u32) -> u32 {
    if random.once_in(3) {
        most
    } else {
        random.below(most + 1)
    }
}

fn header(random: &mut Random) -> Lines {
    vec![
        line("lines", limit(random, 31)),
        line("espi", limit(random, 32)),
        line("eppi", limit(random, 2)),
        line("mbis", random.below(2)),
    ]
}

/// A number that need not be good for anything, with the largest and 0 among them.
fn any_number(random: &mut Random) -> u32 {
    match random.below(4) {
        0 => u32::MAX - random.below(2),
        1 => random.below(2),
        _ => random.any(),
    }
}

fn step(random: &mut Random, lines: &mut Lines) {
    let offset = match random.below(16) {
        0 => any_number(random),
        1 => random.below(0x11000),
        _ => OFFSETS[random.below(24) as usize] + 4 * random.below(33),
    };
    let width = match random.below(12) {
        0 => any_number(random),
        1 | 2 => 2,
        _ => 4,
    };
    let value = match random.below(4) {
        0 => random.below(5200),
        1 => any_number(random),
        _ => random.any(),
    };
    let two = |random: &mut Random, a: &'static str, b: &'static str| {
        if random.once_in(2) {
            a
        } else {
            b
        }
    };
    lines.push(line("op", two(random, "read", "write")));
    lines.push(line("frame", two(random, "dist", "redist")));
    lines.push(line("sec", two(random, "s", "ns")));
    lines.push(line("width", width));
    lines.push(line("offset", offset));
    lines.push(line("value", value));
}

/// A good text. Most have few steps; some are longer than what a program reads at once.
fn good(random: &mut Random) -> Lines {
    let steps = match random.below(16) {
        0 => 0,
        1 => 1000 + random.below(2000),
        _ => random.below(40),
    };
    let mut lines = header(random);
    for _ in 0..steps {
        step(random, &mut lines);
    }
    lines
}

/// One damage to the lines.
fn damage_lines(random: &mut Random, lines: &mut Lines) {
    let at = random.below(lines.len().max(1) as u32) as usize;
    if at >= lines.len() {
        return;
    }
    match random.below(9) {
        0 => drop(lines.remove(at)),
        1 => lines.insert(at, lines[at].clone()),
        2 => swap(lines, at),
        3 => lines[at].push(b'\r'),
        4 => lines.insert(at, Vec::new()),
        5 => lines[at] = LINES[random.below(14) as usize].into(),
        6 => lines[at].extend(b"0123456789012345678901234567890123456789"),
        kind => renumber(random, &mut lines[at], kind == 7),
    }
}

/// Swaps a line with the one after it, the last with the first.
fn swap(lines: &mut Lines, at: usize) {
    let after = (at + 1) % lines.len();
    lines.swap(at, after);
}

/// A leading zero, or another value for the line's key.
fn renumber(random: &mut Random, line: &mut Vec<u8>, zero: bool) {
    let Some(equals) = line.iter().position(|byte| *byte == b'=') else {
        return;
    };
    if zero {
        line.insert(equals + 1, b'0');
    } else {
        line.truncate(equals + 1);
        line.extend(NO_NUMBERS[random.below(10) as usize].bytes());
    }
}

/// One damage to the bytes.
fn damage_bytes(random: &mut Random, text: &mut Vec<u8>) {
    let at = random.below(text.len().max(1) as u32) as usize;
    if at >= text.len() {
        return;
    }
    match random.below(6) {
        0 => text[at] ^= 1 << random.below(8),
        1 => text[at] = random.below(256) as u8,
        2 => text.insert(at, random.below(256) as u8),
        3 => text.truncate(at),
        4 => drop(text.pop()),
        _ => drop(text.remove(at)),
    }
}

/// Text number `number`: one in four is good, one in 64 empty, the others have one
/// to three damages.
fn text(number: u64) -> Vec<u8> {
    let mut random = Random::new(number);
    let mut lines = good(&mut random);
    let damages = random.below(4);
    let in_lines = random.below(damages + 1);
    for _ in 0..in_lines {
        damage_lines(&mut random, &mut lines);
    }
    let mut text: Vec<u8> = Vec::new();
    for line in lines {
        text.extend(line);
        text.push(b'\n');
    }
    for _ in in_lines..damages {
        damage_bytes(&mut random, &mut text);
    }
    if random.once_in(64) {
        text.clear();
    }
    text
}

fn write(first: u64, count: u64, folder: &str) -> std::io::Result<()> {
    for number in first..first.saturating_add(count) {
        let mut file = fs::File::create(format!("{folder}/{number}"))?;
        file.write_all(&text(number))?;
    }
    Ok(())
}

fn main() -> ExitCode {
    let words: Vec<String> = env::args().skip(1).collect();
    let (Some(first), Some(count), Some(folder)) = (
        words.first().and_then(|word| word.parse().ok()),
        words.get(1).and_then(|word| word.parse().ok()),
        words.get(2),
    ) else {
        eprintln!("usage: texts FIRST COUNT FOLDER");
        return ExitCode::FAILURE;
    };
    match write(first, count, folder) {
        Ok(()) => ExitCode::SUCCESS,
        Err(error) => {
            eprintln!("texts: {error}");
            ExitCode::FAILURE
        }
    }
}
