//! Document 01's bench replay: standard input to standard output.
//!
//! A failed read or write ends it with exit code 1 and a word on standard error;
//! bad= is an ordinary end, with exit code 0.

use std::io::{self, BufReader, BufWriter};
use std::process::ExitCode;

/// One system call for many lines.
const BUFFER: usize = 1 << 16;

fn main() -> ExitCode {
    let input = BufReader::with_capacity(BUFFER, io::stdin());
    let output = BufWriter::with_capacity(BUFFER, io::stdout().lock());
    match berduzhika_model::replay::replay(input, output) {
        Ok(()) => ExitCode::SUCCESS,
        Err(error) => {
            eprintln!("replay: {error}");
            ExitCode::FAILURE
        }
    }
}
