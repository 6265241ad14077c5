//! How often each answer and each kind of step occurred.

use std::io::{self, Write};

use berduzhika_model::Answer;

use crate::draw::{Drawn, CLASSES};
use crate::show::{side, way};

/// Answers by their status, and done steps by their class, side and way.
pub struct Counts {
    status: [u64; 10],
    done: [[u64; 4]; CLASSES],
}

impl Counts {
    pub fn new() -> Counts {
        Counts {
            status: [0; 10],
            done: [[0; 4]; CLASSES],
        }
    }

    pub fn add(&mut self, drawn: &Drawn, answer: Answer) {
        self.status[answer.status as usize] += 1;
        if answer.status == 0 {
            let which = 2 * side(drawn.step) + way(drawn.step);
            self.done[drawn.class][which] += 1;
        }
    }

    pub fn print(&self, out: &mut impl Write) -> io::Result<()> {
        for (status, count) in self.status.iter().enumerate() {
            writeln!(out, "status={status} steps={count}")?;
        }
        for (class, [a, b, c, d]) in self.done.iter().enumerate() {
            writeln!(out, "done class={class} s={a} {b} ns={c} {d}")?;
        }
        Ok(())
    }
}
