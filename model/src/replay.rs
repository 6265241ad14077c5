//! Document 01's "Bench replay": lines in, lines out, in constant memory.

use std::io::{self, BufRead, ErrorKind, Read, Write};

use crate::machine::Machine;
use crate::shape::{Shape, MOST_EPPI, MOST_ESPI, MOST_LINES};
use crate::step::{Frame, Side, Step};
use crate::tables::Lent;

/// Bad is "the first line of step 1,000,001", so this many steps are answered.
pub const STEP_LIMIT: u64 = 1_000_000;

/// The longest good line, "offset=4294967295", and its LF. A longer line is bad
/// whatever follows, so no more of it is ever read.
const LONGEST_LINE: u64 = 18;

/// Why a replay stopped before its end.
enum Stop {
    /// A bad or missing line: the one that was asked for last.
    Bad,
    /// Reading or writing failed.
    Failed(io::Error),
}

impl From<io::Error> for Stop {
    fn from(error: io::Error) -> Stop {
        Stop::Failed(error)
    }
}

/// Replays an input with document 01's limit of steps.
///
/// A failed read or write is given back as it is: the answers until then may have
/// been written, and neither end= nor bad= is.
pub fn replay(input: impl BufRead, output: impl Write) -> io::Result<()> {
    replay_up_to(STEP_LIMIT, input, output)
}

/// The same with another limit of steps, so that the limit can be tried on short inputs.
pub fn replay_up_to(limit: u64, input: impl BufRead, mut output: impl Write) -> io::Result<()> {
    let mut lines = Lines::new(input);
    match run(&mut lines, limit, &mut output) {
        // "at the end end= and the count"
        Ok(count) => writeln!(output, "end={count}")?,
        // "it writes bad= and the line number (from 1) and stops, with no end="
        Err(Stop::Bad) => writeln!(output, "bad={}", lines.number)?,
        Err(Stop::Failed(error)) => return Err(error),
    }
    output.flush()
}

/// Answers all steps and gives their count.
fn run(lines: &mut Lines<impl BufRead>, limit: u64, output: &mut impl Write) -> Result<u64, Stop> {
    let shape = header(lines)?;
    // The header's limits are the shape's, so the machine can always be loaded.
    let mut machine = Machine::load(shape, &Lent::all_present()).map_err(|_| Stop::Bad)?;
    let mut count = 0;
    while !lines.at_end()? {
        // "or the first line of step 1,000,001": any byte of it is enough (reading 18).
        if count == limit {
            lines.number += 1;
            return Err(Stop::Bad);
        }
        // Nothing is written before all six lines are good (reading 18).
        let step = read_step(lines)?;
        count += 1;
        // "For each step it writes step=, status= (0 or the refusal), value="
        let answer = machine.step(step);
        writeln!(output, "step={count}")?;
        writeln!(output, "status={}", answer.status)?;
        writeln!(output, "value={}", answer.value)?;
    }
    Ok(count)
}

/// "lines=, espi=, eppi=, mbis= (0 or 1)"; "A shape number off its limit is a bad line".
fn header(lines: &mut Lines<impl BufRead>) -> Result<Shape, Stop> {
    Ok(Shape {
        lines: lines.number_after("lines=", MOST_LINES)?,
        espi: lines.number_after("espi=", MOST_ESPI)?,
        eppi: lines.number_after("eppi=", MOST_EPPI)?,
        mbis: lines.number_after("mbis=", 1)? == 1,
    })
}

/// "steps of op= (read, write), frame= (dist, redist), sec= (s, ns), width=,
/// offset=, value= (present for reads too), in that order, each on its own line".
/// The fields below are read in the order in which they stand.
fn read_step(lines: &mut Lines<impl BufRead>) -> Result<Step, Stop> {
    Ok(Step::Access {
        write: lines.word_after("op=", [("read", false), ("write", true)])?,
        frame: lines.word_after(
            "frame=",
            [
                ("dist", Frame::Distributor),
                ("redist", Frame::Redistributor),
            ],
        )?,
        side: lines.word_after("sec=", [("s", Side::Secure), ("ns", Side::NonSecure)])?,
        width: lines.number_after("width=", u32::MAX)?,
        offset: lines.number_after("offset=", u32::MAX)?,
        value: lines.number_after("value=", u32::MAX)?,
    })
}

/// An input, line by line, with the number of the line asked for last.
struct Lines<R> {
    input: R,
    number: u64,
    line: Vec<u8>,
}

impl<R: BufRead> Lines<R> {
    fn new(input: R) -> Lines<R> {
        let line = Vec::with_capacity(LONGEST_LINE as usize);
        Lines {
            input,
            number: 0,
            line,
        }
    }

    /// Whether no byte follows. An interrupted read says nothing and is tried again.
    fn at_end(&mut self) -> io::Result<bool> {
        loop {
            match self.input.fill_buf() {
                Err(error) if error.kind() == ErrorKind::Interrupted => {}
                bytes => return Ok(bytes?.is_empty()),
            }
        }
    }

    /// What follows the key on the next line. "lines end with LF, and one without
    /// it is bad"; a missing line and one too long have no LF here either.
    fn after(&mut self, key: &str) -> Result<&[u8], Stop> {
        self.number += 1;
        self.line.clear();
        let mut bounded = self.input.by_ref().take(LONGEST_LINE);
        bounded.read_until(b'\n', &mut self.line)?;
        let line = self.line.strip_suffix(b"\n").ok_or(Stop::Bad)?;
        line.strip_prefix(key.as_bytes()).ok_or(Stop::Bad)
    }

    fn number_after(&mut self, key: &str, most: u32) -> Result<u32, Stop> {
        let number = decimal(self.after(key)?).filter(|number| *number <= most);
        number.ok_or(Stop::Bad)
    }

    fn word_after<T>(&mut self, key: &str, words: [(&str, T); 2]) -> Result<T, Stop> {
        let text = self.after(key)?;
        let found = words.into_iter().find(|(word, _)| word.as_bytes() == text);
        found.map(|(_, meaning)| meaning).ok_or(Stop::Bad)
    }
}

/// "Numbers are decimal, at most 4294967295, no leading zeros". "0" is good;
/// "", "00" and "+1" are bad (reading 18).
fn decimal(text: &[u8]) -> Option<u32> {
    let leading_zero = text.len() > 1 && text[0] == b'0';
    if text.is_empty() || leading_zero {
        return None;
    }
    let mut number: u32 = 0;
    for byte in text {
        if !byte.is_ascii_digit() {
            return None;
        }
        let digit = u32::from(byte - b'0');
        number = number.checked_mul(10)?.checked_add(digit)?;
    }
    Some(number)
}
