//! Why a step is refused, and an answer taken out of its number.
use core::fmt;

/// Document 01's refusals, by name.
#[derive(Clone, Copy, Debug, PartialEq, Eq)]
pub enum Refusal {
    /// 1: a number of the shape is off its limit.
    Shape,
    /// 2: width is not 2 or 4.
    Width,
    /// 3: offset is not a multiple of width.
    Alignment,
    /// 4: offset above 65535.
    Offset,
    /// 5: no listed register holds the offset.
    Unlisted,
    /// 6: width 2, and not a message register.
    Narrow,
    /// 7: the INTID is not implemented, or Secure and named by the Non-secure side.
    Intid,
    /// 8: a wire event on an SGI.
    SgiWire,
    /// 9: activate: not enabled, not pending, or active already; deactivate: not active.
    State,
    /// 100: a number that names no frame, side, way or level. The types of this crate leave no way to ask so.
    Nameless,
}

impl Refusal {
    /// The number of the refusal.
    pub const fn number(self) -> u32 {
        match self {
            Refusal::Shape => 1,
            Refusal::Width => 2,
            Refusal::Alignment => 3,
            Refusal::Offset => 4,
            Refusal::Unlisted => 5,
            Refusal::Narrow => 6,
            Refusal::Intid => 7,
            Refusal::SgiWire => 8,
            Refusal::State => 9,
            Refusal::Nameless => 100,
        }
    }
}

impl fmt::Display for Refusal {
    fn fmt(&self, f: &mut fmt::Formatter<'_>) -> fmt::Result {
        write!(f, "refused {} ({:?})", self.number(), self)
    }
}

/// The answer in a number of 64 bits: the status above, the value below.
pub(crate) const fn told(answer: u64) -> Result<u32, Refusal> {
    let value = (answer & 0xFFFF_FFFF) as u32;
    match answer >> 32 {
        0 => Ok(value),
        1 => Err(Refusal::Shape),
        2 => Err(Refusal::Width),
        3 => Err(Refusal::Alignment),
        4 => Err(Refusal::Offset),
        5 => Err(Refusal::Unlisted),
        6 => Err(Refusal::Narrow),
        7 => Err(Refusal::Intid),
        8 => Err(Refusal::SgiWire),
        9 => Err(Refusal::State),
        // 100; the library has no other
        _ => Err(Refusal::Nameless),
    }
}
