//! What a monitor asks: who, where, and what.
use crate::ffi;

/// The frame that an offset counts from.
#[derive(Clone, Copy, Debug, PartialEq, Eq)]
pub enum Frame {
    /// The Distributor, from Dist_base.
    Dist,
    /// The Redistributor, from SGI_base.
    Redist,
}

/// The Security state that asks.
#[derive(Clone, Copy, Debug, PartialEq, Eq)]
pub enum Side {
    NonSecure,
    Secure,
}

/// Reads or writes.
#[derive(Clone, Copy, Debug, PartialEq, Eq)]
pub enum Way {
    Read,
    Write,
}

/// A trapped access. Any width and offset may be given; bad ones are refused. A read ignores its value.
#[derive(Clone, Copy, Debug, PartialEq, Eq)]
pub struct Access {
    pub frame: Frame,
    pub side: Side,
    pub way: Way,
    pub width: u32,
    pub offset: u32,
    pub value: u32,
}

/// What happens beside accesses. INTIDs are judged whole: 65836 is not 300.
#[derive(Clone, Copy, Debug, PartialEq, Eq)]
pub enum Event {
    /// The interrupt's wire goes to a level.
    Wire { intid: u32, level: bool },
    /// A side takes the interrupt.
    Activate { side: Side, intid: u32 },
    /// A side is done with the interrupt.
    Deactivate { side: Side, intid: u32 },
    /// Every record becomes 0.
    Reset,
}

impl Frame {
    pub(crate) const fn number(self) -> u32 {
        match self {
            Frame::Dist => ffi::FRAME_DIST,
            Frame::Redist => ffi::FRAME_REDIST,
        }
    }
}

impl Side {
    pub(crate) const fn number(self) -> u32 {
        match self {
            Side::NonSecure => ffi::SIDE_NON_SECURE,
            Side::Secure => ffi::SIDE_SECURE,
        }
    }
}

impl Way {
    pub(crate) const fn number(self) -> u32 {
        match self {
            Way::Read => ffi::READ,
            Way::Write => ffi::WRITE,
        }
    }
}

impl Access {
    /// A read of `width` bytes.
    pub const fn read(frame: Frame, side: Side, width: u32, offset: u32) -> Access {
        Access {
            frame,
            side,
            way: Way::Read,
            width,
            offset,
            value: 0,
        }
    }

    /// A write of `width` bytes of `value`.
    pub const fn write(frame: Frame, side: Side, width: u32, offset: u32, value: u32) -> Access {
        Access {
            frame,
            side,
            way: Way::Write,
            width,
            offset,
            value,
        }
    }
}
