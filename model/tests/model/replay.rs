//! The bench replay: document 01's example, and good inputs.

use std::io::{self, BufReader, Read, Write};

use berduzhika_model::replay::{replay, replay_up_to, STEP_LIMIT};

pub const HEADER: &str = "lines=9\nespi=4\neppi=1\nmbis=1\n";

/// A step's six lines, from document 01's short form "write dist s 4 164 4096".
pub fn lines(short: &str) -> String {
    let parts: Vec<&str> = short.split(' ').collect();
    let keys = ["op", "frame", "sec", "width", "offset", "value"];
    assert_eq!(parts.len(), keys.len());
    let pairs = keys.iter().zip(parts);
    pairs.map(|(key, part)| format!("{key}={part}\n")).collect()
}

/// The output for an input, read at once and in pieces, which must be the same.
pub fn output(input: &[u8]) -> String {
    let mut whole = Vec::new();
    replay(input, &mut whole).expect("reading and writing memory");
    for piece in [1, 2, 7, 64] {
        let mut pieces = Vec::new();
        let reader = BufReader::with_capacity(piece, input);
        replay(reader, &mut pieces).expect("reading and writing memory");
        assert_eq!(pieces, whole, "pieces of {piece}");
    }
    String::from_utf8(whole).expect("plain text")
}

fn answers(steps: &[&str]) -> String {
    let steps: String = steps.iter().map(|short| lines(short)).collect();
    output(format!("{HEADER}{steps}").as_bytes())
}

#[test]
fn document_01s_example_to_the_byte() {
    let steps = [
        "write dist s 4 164 4096",
        "write dist ns 4 548 4096",
        "read dist ns 4 548 0",
    ];
    let expected = "step=1\nstatus=0\nvalue=0\n\
                    step=2\nstatus=0\nvalue=0\n\
                    step=3\nstatus=0\nvalue=4096\n\
                    end=3\n";
    assert_eq!(answers(&steps), expected);
}

#[test]
fn no_steps_give_end_0() {
    assert_eq!(output(HEADER.as_bytes()), "end=0\n");
    assert_eq!(
        output(b"lines=0\nespi=0\neppi=0\nmbis=0\n"),
        "end=0\n",
        "0 is a good number"
    );
    assert_eq!(output(b"lines=31\nespi=32\neppi=2\nmbis=1\n"), "end=0\n");
}

#[test]
fn the_header_makes_the_shape() {
    let typer = |header: &str| {
        let input = format!("{header}{}", lines("read dist ns 4 4 0"));
        output(input.as_bytes())
    };
    let shown = |value: u32| format!("step=1\nstatus=0\nvalue={value}\nend=1\n");
    assert_eq!(typer(HEADER), shown(0x1A61_0509));
    let largest = "lines=31\nespi=32\neppi=2\nmbis=1\n";
    assert_eq!(typer(largest), shown(0xFA61_051F));
    let smallest = "lines=0\nespi=0\neppi=0\nmbis=0\n";
    assert_eq!(typer(smallest), shown(0x0260_0400));
}

#[test]
fn the_frames_are_told_apart_and_eppi_counts() {
    let steps = [
        "write redist s 4 260 4294967295",
        "read redist s 4 260 0",
        "write redist s 4 264 4294967295",
        "read redist s 4 264 0",
        "read dist s 4 260 0",
    ];
    let expected = "step=1\nstatus=0\nvalue=0\n\
                    step=2\nstatus=0\nvalue=4294967295\n\
                    step=3\nstatus=0\nvalue=0\n\
                    step=4\nstatus=0\nvalue=0\n\
                    step=5\nstatus=0\nvalue=0\n\
                    end=5\n";
    assert_eq!(answers(&steps), expected);
}

#[test]
fn refusals_are_answers_and_the_run_goes_on() {
    let steps = [
        "read dist s 1 548 0",
        "read dist s 4294967295 4294967295 4294967295",
        "read dist s 4 550 0",
        "write dist ns 4 65536 1",
        "read dist s 4 0 0",
        "read dist s 2 548 0",
        "read dist s 2 64 7",
        "read dist s 0 0 0",
    ];
    let statuses = [2, 2, 3, 4, 5, 6, 0, 2];
    let mut expected = String::new();
    for (index, status) in statuses.iter().enumerate() {
        expected += &format!("step={}\nstatus={status}\nvalue=0\n", index + 1);
    }
    expected += "end=8\n";
    assert_eq!(answers(&steps), expected);
}

#[test]
fn the_limit_of_steps() {
    let step = lines("read dist s 4 4 0");
    let two = format!("{HEADER}{step}{step}");
    let run = |limit: u64, input: &str| {
        let mut written = Vec::new();
        replay_up_to(limit, input.as_bytes(), &mut written).expect("memory");
        String::from_utf8(written).expect("plain text")
    };
    let both = "step=1\nstatus=0\nvalue=442565897\nstep=2\nstatus=0\nvalue=442565897\n";
    assert_eq!(run(2, &two), format!("{both}end=2\n"));
    // Any byte is the first line of step 3: 4 + 2 * 6 + 1 is 17.
    for more in [step.as_str(), "op=read\n", "o", "\n", "\r", "\0"] {
        let input = format!("{two}{more}");
        assert_eq!(run(2, &input), format!("{both}bad=17\n"), "{more:?}");
    }
    assert_eq!(run(0, HEADER), "end=0\n");
    assert_eq!(run(0, &two), "bad=5\n");
}

/// A step's lines, many times over, without holding them all.
struct Repeated {
    step: Vec<u8>,
    at: usize,
    left: u64,
}

impl Read for Repeated {
    fn read(&mut self, into: &mut [u8]) -> io::Result<usize> {
        if self.left == 0 {
            return Ok(0);
        }
        let count = (&self.step[self.at..]).read(into)?;
        self.at += count;
        if self.at == self.step.len() {
            self.at = 0;
            self.left -= 1;
        }
        Ok(count)
    }
}

/// Keeps the end of what is written.
struct Tail(Vec<u8>);

impl Write for Tail {
    fn write(&mut self, bytes: &[u8]) -> io::Result<usize> {
        self.0.extend_from_slice(bytes);
        if self.0.len() > 4096 {
            self.0.drain(..4000);
        }
        Ok(bytes.len())
    }

    fn flush(&mut self) -> io::Result<()> {
        Ok(())
    }
}

fn after_a_million(more: &str) -> String {
    let steps = Repeated {
        step: lines("read dist ns 4 548 0").into_bytes(),
        at: 0,
        left: 1_000_000,
    };
    let input = HEADER.as_bytes().chain(steps).chain(more.as_bytes());
    let mut tail = Tail(Vec::new());
    replay(BufReader::new(input), &mut tail).expect("memory");
    let text = String::from_utf8(tail.0).expect("plain text");
    let last = text.rfind("step=").expect("steps were answered");
    text[last..].to_string()
}

#[test]
fn the_real_limit_is_a_million_steps() {
    assert_eq!(STEP_LIMIT, 1_000_000);
    let last = "step=1000000\nstatus=0\nvalue=0\n";
    assert_eq!(after_a_million(""), format!("{last}end=1000000\n"));
    assert_eq!(after_a_million("x"), format!("{last}bad=6000005\n"));
    let step = lines("read dist ns 4 548 0");
    assert_eq!(after_a_million(&step), format!("{last}bad=6000005\n"));
}

/// An input that is interrupted before every piece, and then fails or ends.
struct Troubled {
    text: Vec<u8>,
    at: usize,
    interrupt: bool,
    fails: bool,
}

impl Read for Troubled {
    fn read(&mut self, into: &mut [u8]) -> io::Result<usize> {
        self.interrupt = !self.interrupt;
        if self.interrupt {
            return Err(io::ErrorKind::Interrupted.into());
        }
        if self.at == self.text.len() && self.fails {
            return Err(io::ErrorKind::PermissionDenied.into());
        }
        let count = (&self.text[self.at..]).read(into)?;
        self.at += count;
        Ok(count)
    }
}

#[test]
fn an_interrupted_read_is_tried_again_and_a_failed_one_is_given_back() {
    let text = format!("{HEADER}{}", lines("read dist s 4 4 0"));
    let answered = "step=1\nstatus=0\nvalue=442565897\n";
    for fails in [false, true] {
        let input = Troubled {
            text: text.clone().into_bytes(),
            at: 0,
            interrupt: false,
            fails,
        };
        let mut written = Vec::new();
        let result = replay(BufReader::with_capacity(5, input), &mut written);
        let written = String::from_utf8(written).expect("plain text");
        if fails {
            let error = result.expect_err("the read fails");
            assert_eq!(error.kind(), io::ErrorKind::PermissionDenied);
            assert_eq!(written, answered);
        } else {
            assert!(result.is_ok());
            assert_eq!(written, format!("{answered}end=1\n"));
        }
    }
}

/// An output that takes no byte.
struct Full;

impl Write for Full {
    fn write(&mut self, _: &[u8]) -> io::Result<usize> {
        Err(io::ErrorKind::StorageFull.into())
    }

    fn flush(&mut self) -> io::Result<()> {
        Ok(())
    }
}

#[test]
fn a_failed_write_is_given_back() {
    let text = format!("{HEADER}{}", lines("read dist s 4 4 0"));
    for input in [text.as_str(), HEADER, ""] {
        let error = replay(input.as_bytes(), Full).expect_err("the write fails");
        assert_eq!(error.kind(), io::ErrorKind::StorageFull);
    }
}
