//! One step as a line of numbers, for those who look for the first difference.

use std::io::{self, Write};

use berduzhika_model::{Answer, Frame, Side, Step};

use crate::draw::Drawn;

pub fn show(
    out: &mut impl Write,
    number: u64,
    drawn: &Drawn,
    answer: Answer,
    tables: u64,
) -> io::Result<()> {
    let (side, way) = (side(drawn.step), way(drawn.step));
    write!(out, "step {number} {} {side} {way}", drawn.class)?;
    match drawn.step {
        Step::Access {
            frame,
            width,
            offset,
            value,
            ..
        } => {
            let frame = u8::from(frame == Frame::Redistributor);
            write!(out, " {frame} {width} {offset} {value} 0")?;
        }
        Step::Wire { intid, .. }
        | Step::Activate { intid, .. }
        | Step::Deactivate { intid, .. } => write!(out, " 0 0 0 0 {intid}")?,
        Step::Reset => write!(out, " 0 0 0 0 0")?,
    }
    write!(out, " {} {} {}", drawn.off, answer.status, answer.value)?;
    writeln!(out, " {tables:016x}")
}

/// 1 for the Non-secure side; 0 for steps that name none.
pub fn side(step: Step) -> usize {
    match step {
        Step::Access { side, .. } | Step::Activate { side, .. } | Step::Deactivate { side, .. } => {
            usize::from(side == Side::NonSecure)
        }
        Step::Wire { .. } | Step::Reset => 0,
    }
}

/// 1 for a write, and for a wire that goes high.
pub fn way(step: Step) -> usize {
    match step {
        Step::Access { write, .. } => usize::from(write),
        Step::Wire { level, .. } => usize::from(level),
        _ => 0,
    }
}
