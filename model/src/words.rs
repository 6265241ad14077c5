//! Reading and writing the words that stand for interrupts.
//!
//! A word is a run of INTIDs; the map is asked for that run, so an access costs
//! in proportion to its word, and Distributor word 31 has 28 interrupts of itself.

use std::collections::BTreeMap;

use crate::interrupt::Interrupt;
use crate::registers::Family;
use crate::shape::Shape;
use crate::step::Side;

/// All interrupts that have a record, by INTID.
pub(crate) type Interrupts = BTreeMap<u32, Interrupt>;

/// "An interrupt is implemented when it is in range and its presence bit is 1."
pub(crate) fn implemented(shape: Shape, intid: u32, interrupt: &Interrupt) -> bool {
    interrupt.present && shape.reaches(intid)
}

/// One side's view of a word: whose accesses, and on which shape.
#[derive(Clone, Copy)]
pub(crate) struct View {
    pub shape: Shape,
    pub side: Side,
}

impl View {
    /// "Bits of interrupts not implemented read 0 and ignore writes. Bits of
    /// Secure interrupts do the same for the Non-secure side, in every family."
    fn shows(self, intid: u32, interrupt: &Interrupt) -> bool {
        implemented(self.shape, intid, interrupt) && interrupt.open_to(self.side)
    }

    /// "IGROUPR and IGRPMODR: Secure reads and writes the stored bits; the
    /// Non-secure side reads 0 and its writes do nothing."
    fn hides(self, family: Family) -> bool {
        self.side == Side::NonSecure && matches!(family, Family::Group | Family::Modifier)
    }

    /// The word of a bit family whose bit 0 is `first`.
    pub fn read_bits(self, map: &Interrupts, family: Family, first: u32) -> u32 {
        if self.hides(family) {
            return 0;
        }
        let shown = map
            .range(first..first + 32)
            .filter(|(intid, interrupt)| self.shows(**intid, interrupt));
        shown.fold(0, |word, (intid, interrupt)| {
            word | u32::from(reads(family, interrupt)) << (intid - first)
        })
    }

    /// Writes a word of a bit family, interrupt by interrupt.
    pub fn write_bits(self, map: &mut Interrupts, family: Family, first: u32, value: u32) {
        if self.hides(family) {
            return;
        }
        for (intid, interrupt) in map.range_mut(first..first + 32) {
            if self.shows(*intid, interrupt) {
                let written = value >> (intid - first) & 1 == 1;
                writes(family, interrupt, written);
            }
        }
    }

    /// "ICFGR: field x is bits 2x+1:2x; the upper bit is edge, the lower is 0."
    pub fn read_config(self, map: &Interrupts, first: u32) -> u32 {
        let shown = map
            .range(first..first + 16)
            .filter(|(intid, interrupt)| self.shows(**intid, interrupt));
        shown.fold(0, |word, (intid, interrupt)| {
            let upper = 2 * (intid - first) + 1;
            word | u32::from(interrupt.edge_triggered()) << upper
        })
    }

    /// Writes ICFGR field by field; the lower bits are ignored (reading 8).
    pub fn write_config(self, map: &mut Interrupts, first: u32, value: u32) {
        for (intid, interrupt) in map.range_mut(first..first + 16) {
            if self.shows(*intid, interrupt) {
                let upper = 2 * (intid - first) + 1;
                interrupt.configure(value >> upper & 1 == 1);
            }
        }
    }
}

/// "Both of a pair read the same word."
fn reads(family: Family, interrupt: &Interrupt) -> bool {
    match family {
        Family::Group => interrupt.group,
        Family::Modifier => interrupt.modifier,
        Family::SetEnable | Family::ClearEnable => interrupt.enabled,
        Family::SetPending | Family::ClearPending => interrupt.pending(),
        Family::SetActive | Family::ClearActive => interrupt.active,
    }
}

/// "Set and clear families: a written 1 acts, a 0 does nothing." Grouping bits
/// are stored as written.
fn writes(family: Family, interrupt: &mut Interrupt, written: bool) {
    match family {
        Family::Group => interrupt.group = written,
        Family::Modifier => interrupt.modifier = written,
        _ if !written => {}
        // "Enable and active: the bit is set or cleared."
        Family::SetEnable => interrupt.enabled = true,
        Family::ClearEnable => interrupt.enabled = false,
        Family::SetActive => interrupt.active = true,
        Family::ClearActive => interrupt.active = false,
        // "ISPENDR sets the latch, also while the wire is high"
        Family::SetPending => interrupt.latch = true,
        // "ICPENDR clears the latch only; a wire or message level keeps a level
        // interrupt pending"
        Family::ClearPending => interrupt.latch = false,
    }
}
