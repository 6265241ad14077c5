//! The machine: loaded once, stepped many times.

use crate::answer::{Answer, Outcome, Refusal};
use crate::interrupt::Interrupt;
use crate::registers::Register;
use crate::shape::{is_spi, Shape};
use crate::step::{locate, value_seen, Side, Step};
use crate::tables::{self, Lent};
use crate::words::{implemented, Interrupts, View};

/// A shape within limits and its interrupts. There is none for tables or shapes
/// that refusal 1 turns away, so its steps need not try refusal 1 again.
#[derive(Clone, Debug, PartialEq, Eq)]
pub struct Machine {
    shape: Shape,
    interrupts: Interrupts,
}

impl Machine {
    /// Loads lent tables, or gives refusal 1.
    pub fn load(shape: Shape, lent: &Lent) -> Result<Machine, Refusal> {
        if !shape.within_limits() {
            return Err(Refusal::Limit);
        }
        let interrupts = tables::load(lent)?;
        Ok(Machine { shape, interrupts })
    }

    /// Stores all records. Presence words stay as they are: no step changes them.
    pub fn store(&self, lent: &mut Lent) -> Result<(), Refusal> {
        tables::store(&self.interrupts, lent)
    }

    /// One record as a byte, for those who compare or digest without storing;
    /// nothing for a number that has no record.
    pub fn record(&self, intid: u32) -> Option<u8> {
        self.interrupts.get(&intid).map(tables::record_of)
    }

    /// All records as bytes, by rising INTID.
    pub fn records(&self) -> impl Iterator<Item = (u32, u8)> + '_ {
        self.interrupts
            .iter()
            .map(|(intid, interrupt)| (*intid, tables::record_of(interrupt)))
    }

    /// Puts a byte into one record; false for a number that has no record.
    pub fn set_record(&mut self, intid: u32, record: u8) -> bool {
        match self.interrupts.get_mut(&intid) {
            Some(interrupt) => {
                tables::put_record(interrupt, record);
                true
            }
            None => false,
        }
    }

    /// Takes one step. "The first that applies is given; otherwise the answer is done."
    pub fn step(&mut self, step: Step) -> Answer {
        let outcome = match step {
            Step::Access {
                frame,
                side,
                write,
                width,
                offset,
                value,
            } => locate(frame, width, offset).map(|register| {
                if write {
                    self.write(register, side, value_seen(width, value));
                    0
                } else {
                    self.read(register, side)
                }
            }),
            Step::Wire { intid, level } => self.wire(intid, level),
            Step::Activate { side, intid } => self.activate(side, intid),
            Step::Deactivate { side, intid } => self.deactivate(side, intid),
            Step::Reset => self.reset(),
        };
        Answer::from(outcome)
    }

    fn read(&self, register: Register, side: Side) -> u32 {
        let view = self.view(side);
        match register {
            Register::Typer => self.shape.typer(),
            // "reads give 0 (HOUSE)", also with mbis no (reading 9).
            Register::Message { .. } => 0,
            Register::Reserved => 0,
            Register::Bits { family, first } => view.read_bits(&self.interrupts, family, first),
            Register::Config { first } => view.read_config(&self.interrupts, first),
        }
    }

    fn write(&mut self, register: Register, side: Side, value: u32) {
        let view = self.view(side);
        let map = &mut self.interrupts;
        match register {
            // TYPER: "Writes do nothing."
            Register::Typer | Register::Reserved => {}
            Register::Message { set, secure } => self.message(set, secure, side, value),
            Register::Bits { family, first } => view.write_bits(map, family, first, value),
            Register::Config { first } => view.write_config(map, first, value),
        }
    }

    /// A write to SETSPI or CLRSPI.
    fn message(&mut self, set: bool, secure: bool, side: Side, value: u32) {
        // "With mbis no, writes do nothing."
        if !self.shape.mbis {
            return;
        }
        // "if the Non-secure side writes an SR register"
        if secure && side == Side::NonSecure {
            return;
        }
        // "INTID is value bits 12:0"
        let intid = value & 0x1FFF;
        // "if the INTID is not an implemented SPI or extended SPI"
        if !is_spi(intid) {
            return;
        }
        // "or if the Non-secure side names a Secure SPI in an NSR register. A
        // Secure write to an NSR register may name either kind."
        match self.implemented_mut(intid) {
            Some(interrupt) if interrupt.open_to(side) => {
                if set {
                    interrupt.set_by_message();
                } else {
                    interrupt.clear_by_message();
                }
            }
            _ => {}
        }
    }

    /// A wire event: refusals 7 and 8. "a wire event has none", no side, so its
    /// 7 is only "not implemented" (reading 10).
    fn wire(&mut self, intid: u32, level: bool) -> Outcome {
        let interrupt = self.implemented_mut(intid).ok_or(Refusal::NotNamed)?;
        if interrupt.sgi {
            return Err(Refusal::WireOnSgi);
        }
        interrupt.drive(level);
        Ok(0)
    }

    /// Activation: refusals 7 and 9.
    fn activate(&mut self, side: Side, intid: u32) -> Outcome {
        let interrupt = self.named_by(side, intid)?;
        if !interrupt.can_activate() {
            return Err(Refusal::WrongState);
        }
        interrupt.activate();
        Ok(0)
    }

    /// "Deactivate clears active.": refusals 7 and 9.
    fn deactivate(&mut self, side: Side, intid: u32) -> Outcome {
        let interrupt = self.named_by(side, intid)?;
        if !interrupt.active {
            return Err(Refusal::WrongState);
        }
        interrupt.active = false;
        Ok(0)
    }

    /// "all 2,012 and 96 record bytes become 0", those of missing interrupts too
    /// (reading 11); "refused only by 1".
    fn reset(&mut self) -> Outcome {
        self.interrupts.values_mut().for_each(Interrupt::reset);
        Ok(0)
    }

    fn view(&self, side: Side) -> View {
        let shape = self.shape;
        View { shape, side }
    }

    fn implemented_mut(&mut self, intid: u32) -> Option<&mut Interrupt> {
        let shape = self.shape;
        self.interrupts
            .get_mut(&intid)
            .filter(|interrupt| implemented(shape, intid, interrupt))
    }

    /// Refusal 7: "INTID not implemented, or Secure and named by the Non-secure
    /// side". The whole number is judged, never a part of it (reading 10).
    fn named_by(&mut self, side: Side, intid: u32) -> Result<&mut Interrupt, Refusal> {
        self.implemented_mut(intid)
            .filter(|interrupt| interrupt.open_to(side))
            .ok_or(Refusal::NotNamed)
    }
}
