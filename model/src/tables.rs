//! The border: the four lent tables, loaded into interrupts and stored again.

use crate::answer::Refusal;
use crate::interrupt::Interrupt;
use crate::shape::is_sgi;
use crate::words::Interrupts;

/// "Four lent tables: 2,012 Distributor bytes, 96 Redistributor bytes, 63 and 3
/// presence words of 32 bits." Any lengths may be lent; wrong ones are refused 1.
#[derive(Clone, Debug, PartialEq, Eq)]
pub struct Lent {
    pub dist: Vec<u8>,
    pub redist: Vec<u8>,
    pub dist_presence: Vec<u32>,
    pub redist_presence: Vec<u32>,
}

pub const DIST_RECORDS: usize = 2012;
pub const REDIST_RECORDS: usize = 96;
pub const DIST_PRESENCE: usize = 63;
pub const REDIST_PRESENCE: usize = 3;

impl Lent {
    /// The replay's start: "All interrupts present, records start at 0."
    pub fn all_present() -> Lent {
        Lent {
            dist: vec![0; DIST_RECORDS],
            redist: vec![0; REDIST_RECORDS],
            dist_presence: vec![u32::MAX; DIST_PRESENCE],
            redist_presence: vec![u32::MAX; REDIST_PRESENCE],
        }
    }

    /// Refusal 1's part on tables: no table length is off its limit.
    pub fn within_limits(&self) -> bool {
        self.dist.len() == DIST_RECORDS
            && self.redist.len() == REDIST_RECORDS
            && self.dist_presence.len() == DIST_PRESENCE
            && self.redist_presence.len() == REDIST_PRESENCE
    }
}

/// The numbers that have a record: SGIs and PPIs, SPIs, extended PPIs, extended SPIs.
fn recorded() -> impl Iterator<Item = u32> {
    (0..=1019).chain(1056..=1119).chain(4096..=5119)
}

/// The lent tables that hold an interrupt: the Distributor's or the Redistributor's.
enum Slot {
    Dist(usize),
    Redist(usize),
}

/// "Distributor slots: m - 32 for SPIs, 988 + (m - 4096) for extended SPIs.
/// Redistributor slots: m for 0 to 31, 32 + (m - 1056) for extended PPIs." Asked
/// only for numbers that have a record.
fn slot(intid: u32) -> Slot {
    let m = intid as usize;
    match intid {
        0..=31 => Slot::Redist(m),
        32..=1019 => Slot::Dist(m - 32),
        1056..=1119 => Slot::Redist(32 + (m - 1056)),
        _ => Slot::Dist(988 + (m - 4096)),
    }
}

/// "Presence words follow register words: Distributor presence words 0 to 30 are
/// SPI registers 1 to 31, 31 to 62 are extended registers 0 to 31." Redistributor
/// presence word w is register word w (reading 3). Bits of numbers out of range
/// are never asked for (reading 1).
fn present(lent: &Lent, intid: u32) -> bool {
    let m = intid as usize;
    let word = match intid {
        0..=31 => lent.redist_presence[0],
        32..=1019 => lent.dist_presence[m / 32 - 1],
        1056..=1119 => lent.redist_presence[1 + (m - 1056) / 32],
        _ => lent.dist_presence[31 + (m - 4096) / 32],
    };
    word >> (intid % 32) & 1 == 1
}

/// All interrupts of lent tables, or refusal 1.
pub(crate) fn load(lent: &Lent) -> Result<Interrupts, Refusal> {
    if !lent.within_limits() {
        return Err(Refusal::Limit);
    }
    let interrupts = recorded().map(|intid| {
        let mut interrupt = Interrupt {
            sgi: is_sgi(intid),
            present: present(lent, intid),
            ..Interrupt::default()
        };
        let record = match slot(intid) {
            Slot::Dist(at) => lent.dist[at],
            Slot::Redist(at) => lent.redist[at],
        };
        put_record(&mut interrupt, record);
        (intid, interrupt)
    });
    Ok(interrupts.collect())
}

/// Stores the records of all interrupts, or gives refusal 1 and stores none.
pub(crate) fn store(interrupts: &Interrupts, lent: &mut Lent) -> Result<(), Refusal> {
    if !lent.within_limits() {
        return Err(Refusal::Limit);
    }
    for (intid, interrupt) in interrupts {
        let record = match slot(*intid) {
            Slot::Dist(at) => &mut lent.dist[at],
            Slot::Redist(at) => &mut lent.redist[at],
        };
        *record = record_of(interrupt);
    }
    Ok(())
}

/// "Record bits, by value: 1 enabled, 2 latch, 4 wire, 8 message level, 16 active,
/// 32 edge, 64 group, 128 modifier."
pub(crate) fn record_of(interrupt: &Interrupt) -> u8 {
    let bit = |fact: bool, value: u8| if fact { value } else { 0 };
    bit(interrupt.enabled, 1)
        + bit(interrupt.latch, 2)
        + bit(interrupt.wire, 4)
        + bit(interrupt.message_level, 8)
        + bit(interrupt.active, 16)
        + bit(interrupt.edge, 32)
        + bit(interrupt.group, 64)
        + bit(interrupt.modifier, 128)
}

/// The same bits, read. "Every byte has a meaning, so there is no bad-record refusal."
pub(crate) fn put_record(interrupt: &mut Interrupt, record: u8) {
    let has = |value: u8| record & value != 0;
    interrupt.enabled = has(1);
    interrupt.latch = has(2);
    interrupt.wire = has(4);
    interrupt.message_level = has(8);
    interrupt.active = has(16);
    interrupt.edge = has(32);
    interrupt.group = has(64);
    interrupt.modifier = has(128);
}
