//! The shape numbers, and which INTIDs they put in range.

/// "Shape and tables", first table.
#[derive(Clone, Copy, Debug, PartialEq, Eq)]
pub struct Shape {
    pub lines: u32,
    pub espi: u32,
    pub eppi: u32,
    pub mbis: bool,
}

/// "lines | 0 to 31"
pub const MOST_LINES: u32 = 31;
/// "espi | 0 to 32 words"
pub const MOST_ESPI: u32 = 32;
/// "eppi | 0 to 2 words"
pub const MOST_EPPI: u32 = 2;

impl Shape {
    /// Refusal 1's part on shapes: no shape number is off its limit.
    pub fn within_limits(self) -> bool {
        self.lines <= MOST_LINES && self.espi <= MOST_ESPI && self.eppi <= MOST_EPPI
    }

    /// Whether an INTID is in range. Words are counted, not last INTIDs, so that
    /// no shape number, however large, can overflow.
    pub fn reaches(self, intid: u32) -> bool {
        match intid {
            // SGIs and PPIs: in range whatever eppi is (reading 1).
            0..=31 => true,
            // "SPIs 32 to the smaller of 1019 and 32·lines + 31"
            32..=1019 => intid / 32 <= self.lines,
            // "INTIDs 1056 to 1055 + 32·eppi"
            1056..=1119 => (intid - 1056) / 32 < self.eppi,
            // "INTIDs 4096 to 4095 + 32·espi"
            4096..=5119 => (intid - 4096) / 32 < self.espi,
            _ => false,
        }
    }

    /// "TYPER reads lines + 2^8·(espi > 0) + 2^10 + 2^16·mbis + 12·2^19 + 2^25
    /// + 2^27·(espi - 1 if espi > 0, else 0)." Asked of shapes within limits only.
    pub(crate) fn typer(self) -> u32 {
        let extended = match self.espi {
            0 => 0,
            words => (1 << 8) + ((words - 1) << 27),
        };
        let messages = if self.mbis { 1 << 16 } else { 0 };
        self.lines + extended + (1 << 10) + messages + (12 << 19) + (1 << 25)
    }
}

/// "0 to 15 are SGIs"
pub fn is_sgi(intid: u32) -> bool {
    intid <= 15
}

/// The numbers that a message register may name: SPIs and extended SPIs.
pub fn is_spi(intid: u32) -> bool {
    matches!(intid, 32..=1019 | 4096..=5119)
}
