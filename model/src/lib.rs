//! A second model of the interrupt controller's answers, to compare with.
//!
//! It is written from document 01, the requests of document 02 that are built and
//! their readings (docs/DECISIONS.md has them) alone, in another shape than the
//! product: a map from INTID to a struct of named facts, and a `match` on offsets.
//! Record bytes appear only in `tables`, where the lent tables are loaded and
//! stored.
//!
//! Comments in quotation marks are sentences of document 01, or of document 02
//! where they name a request (CR n) of it. "Reading n" is point n of the readings.

pub mod answer;
pub mod interrupt;
pub mod machine;
pub mod random;
pub mod registers;
pub mod replay;
pub mod shape;
pub mod step;
pub mod tables;
mod words;

pub use answer::{Answer, Refusal};
pub use machine::Machine;
pub use shape::Shape;
pub use step::{Frame, Side, Step};
pub use tables::Lent;

/// One step on lent tables: loads them, takes the step, stores the records.
///
/// Refusal 1 is "tried first", by every kind of step (reading 6), so tables or
/// shapes off their limits are not even loaded and stay as they were.
pub fn step(shape: Shape, lent: &mut Lent, step: Step) -> Answer {
    let mut machine = match Machine::load(shape, lent) {
        Ok(machine) => machine,
        Err(refusal) => return Answer::refused(refusal),
    };
    let answer = machine.step(step);
    match machine.store(lent) {
        Ok(()) => answer,
        Err(refusal) => Answer::refused(refusal),
    }
}
