//! What `tools/calls.c` asks of the exported library, asked of the model:
//! `calls CASE COUNT` (docs/PERFORMANCE.md). It prints the same digest.

use std::env;
use std::process::ExitCode;

use berduzhika_model::{Frame, Lent, Machine, Shape, Side, Step};

const ISPENDR_9: u32 = 0x224;
const PAST_MAP: u32 = 0xFFFC;
const IN_MAP: u32 = 0x000;

/// A case: whether it writes, the offset, and the value before it is turned.
fn case(name: &str) -> Option<(bool, u32, u32)> {
    Some(match name {
        "past" => (true, PAST_MAP, 1),
        "unlisted" => (true, IN_MAP, 1),
        "read" => (false, ISPENDR_9, 0),
        "none" => (true, ISPENDR_9, 0),
        "one" => (true, ISPENDR_9, 1),
        "two" => (true, ISPENDR_9, 0x21),
        "all" => (true, ISPENDR_9, u32::MAX),
        _ => return None,
    })
}

/// The bench shape; all interrupts present, the SPIs Non-secure and edge, every
/// third one pending.
fn bench() -> Option<Machine> {
    let shape = Shape {
        lines: 9,
        espi: 4,
        eppi: 1,
        mbis: true,
    };
    let mut lent = Lent::all_present();
    for (k, record) in lent.dist.iter_mut().enumerate() {
        *record = if k % 3 == 0 { 0x62 } else { 0x60 };
    }
    Machine::load(shape, &lent).ok()
}

fn digest(d: u64, seen: u64) -> u64 {
    (d ^ seen).wrapping_mul(0x100_0000_01B3)
}

fn run(name: &str, count: &str) -> Option<u64> {
    let (write, offset, value) = case(name)?;
    let count = count.parse::<u32>().ok().filter(|count| *count > 0)?;
    let mut machine = bench()?;
    let mut d = 0;
    for i in 0..count {
        let answer = machine.step(Step::Access {
            frame: Frame::Distributor,
            side: Side::NonSecure,
            write,
            width: 4,
            offset,
            value: value.rotate_left(i % 32),
        });
        d = digest(d, u64::from(answer.status) << 32 | u64::from(answer.value));
    }
    let word = (288..320).map(|intid| machine.record(intid).unwrap_or(0));
    Some(word.fold(d, |d, record| digest(d, u64::from(record))))
}

fn main() -> ExitCode {
    let words: Vec<String> = env::args().skip(1).collect();
    let answer = match words.as_slice() {
        [name, count] => run(name, count),
        _ => None,
    };
    match answer {
        Some(d) => {
            println!("{d:016x}");
            ExitCode::SUCCESS
        }
        None => {
            eprintln!("usage: calls past|unlisted|read|none|one|two|all COUNT");
            ExitCode::from(2)
        }
    }
}
