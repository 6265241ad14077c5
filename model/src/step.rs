//! What a user of the controller may ask for.

use crate::answer::Refusal;
use crate::registers::{self, Register};

/// "One Distributor (Dist_base), one Redistributor (SGI_base frame only)"
#[derive(Clone, Copy, Debug, PartialEq, Eq)]
pub enum Frame {
    Distributor,
    Redistributor,
}

/// "two Security states (GICD_CTLR.DS = 0)"
#[derive(Clone, Copy, Debug, PartialEq, Eq)]
pub enum Side {
    Secure,
    NonSecure,
}

/// An access or an event.
#[derive(Clone, Copy, Debug, PartialEq, Eq)]
pub enum Step {
    Access {
        frame: Frame,
        side: Side,
        write: bool,
        width: u32,
        offset: u32,
        value: u32,
    },
    Wire {
        intid: u32,
        level: bool,
    },
    Activate {
        side: Side,
        intid: u32,
    },
    Deactivate {
        side: Side,
        intid: u32,
    },
    Reset,
}

/// Finds the register of an access, or the first of refusals 2 to 6:
/// "Accesses try 1 to 6 in that order".
pub(crate) fn locate(frame: Frame, width: u32, offset: u32) -> Result<Register, Refusal> {
    if width != 2 && width != 4 {
        return Err(Refusal::Width);
    }
    if !offset.is_multiple_of(width) {
        return Err(Refusal::Alignment);
    }
    if offset > 65535 {
        return Err(Refusal::OutsideFrame);
    }
    // "the aligned word holding the offset": a half word's word is the one below it.
    let word = offset - offset % 4;
    let listed = match frame {
        Frame::Distributor => registers::distributor(word),
        Frame::Redistributor => registers::redistributor(word),
    };
    let register = listed.ok_or(Refusal::Unlisted)?;
    let half_word_allowed =
        frame == Frame::Distributor && matches!(offset, 0x40 | 0x48 | 0x50 | 0x58);
    if width == 2 && !half_word_allowed {
        return Err(Refusal::HalfWord);
    }
    Ok(register)
}

/// "With width 2 the upper half of the value is ignored."
pub(crate) fn value_seen(width: u32, value: u32) -> u32 {
    if width == 2 {
        value & 0xFFFF
    } else {
        value
    }
}
