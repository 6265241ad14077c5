//! What a monitor answers when it traps accesses to Arm's GICv3 interrupt controller: a safe wrapper of libberduzhika.a.
//!
//! Tables have their one length, and frames, sides and directions are enums, so of the library's refusals only those of document 01
//! are left. A refusal leaves every byte of the tables as it was.
//!
//! ```
//! use berduzhika::{Access, Controller, Frame, Refusal, Shape, Side, Tables};
//!
//! let shape = Shape { lines: 9, espi: 4, eppi: 1, mbis: true };
//! let mut controller = Controller { shape, tables: Tables::all_present() };
//! let typer = Access::read(Frame::Dist, Side::NonSecure, 4, 0x004);
//! assert_eq!(controller.access(typer), Ok(0x1A61_0509));
//! let byte = Access::read(Frame::Dist, Side::NonSecure, 1, 0x004);
//! assert_eq!(controller.access(byte), Err(Refusal::Width));
//! ```
#![no_std]

mod ffi;
mod refusal;
mod request;

pub use refusal::Refusal;
pub use request::{Access, Event, Frame, Side, Way};

/// What is built. Any number may be given; one off its limit is refused by every call.
#[derive(Clone, Copy, Debug, PartialEq, Eq)]
pub struct Shape {
    /// SPI lines, 0 to 31: SPIs 32 to the smaller of 1019 and 32 * lines + 31.
    pub lines: u32,
    /// Words of extended SPIs, 0 to 32: INTIDs from 4096 on.
    pub espi: u32,
    /// Words of extended PPIs, 0 to 2: INTIDs from 1056 on.
    pub eppi: u32,
    /// Whether SPIs can be set and cleared by message.
    pub mbis: bool,
}

/// The four tables: a record byte for each interrupt, and a bit that says whether it exists.
///
/// A record has, by value: 1 enabled, 2 latch, 4 wire, 8 message level, 16 active, 32 edge, 64 group, 128 modifier. Every byte has a
/// meaning. An interrupt is Non-secure exactly when its group bit is 1, whatever its modifier bit; otherwise it is Secure.
#[derive(Clone, Debug, PartialEq, Eq)]
pub struct Tables {
    pub dist: [u8; 2012],
    pub redist: [u8; 96],
    pub dist_presence: [u32; 63],
    pub redist_presence: [u32; 3],
}

impl Tables {
    /// Every record 0, every interrupt present that the shape has in range.
    pub const fn all_present() -> Tables {
        Tables {
            dist: [0; 2012],
            redist: [0; 96],
            dist_presence: [u32::MAX; 63],
            redist_presence: [u32::MAX; 3],
        }
    }
}

/// A controller: its shape and the tables that it owns. Both are plain data; anything may be put into them.
#[derive(Clone, Debug, PartialEq, Eq)]
pub struct Controller {
    pub shape: Shape,
    pub tables: Tables,
}

// Hands the tables and the shape to a function of the library, with the numbers of the request after them.
macro_rules! ask {
    ($controller:expr, $function:ident $(, $number:expr)*) => {{
        let shape = $controller.shape;
        let tables = &mut $controller.tables;
        // SAFETY: each pointer is that of a whole array, with its length; the four arrays are fields of one struct that is borrowed
        // for writing, so none overlaps another and nobody else reads or writes them; the library keeps no pointer.
        let answer = unsafe {
            ffi::$function(
                tables.dist.as_mut_ptr(),
                tables.dist.len(),
                tables.redist.as_mut_ptr(),
                tables.redist.len(),
                tables.dist_presence.as_ptr(),
                tables.dist_presence.len(),
                tables.redist_presence.as_ptr(),
                tables.redist_presence.len(),
                shape.lines,
                shape.espi,
                shape.eppi,
                u32::from(shape.mbis),
                $($number),*
            )
        };
        refusal::told(answer)
    }};
}

impl Controller {
    /// A trapped access: the value that was read, 0 for a write, or why it is refused (1 to 6).
    pub fn access(&mut self, access: Access) -> Result<u32, Refusal> {
        ask!(
            self,
            berduzhika_access,
            access.frame.number(),
            access.side.number(),
            access.way.number(),
            access.width,
            access.offset,
            access.value
        )
    }

    /// An event: done, or why it is refused (1, 7, 8, 9).
    pub fn event(&mut self, event: Event) -> Result<(), Refusal> {
        let answer = match event {
            Event::Wire { intid, level } => ask!(self, berduzhika_wire, intid, u32::from(level)),
            Event::Activate { side, intid } => {
                ask!(self, berduzhika_activate, side.number(), intid)
            }
            Event::Deactivate { side, intid } => {
                ask!(self, berduzhika_deactivate, side.number(), intid)
            }
            Event::Reset => ask!(self, berduzhika_reset),
        };
        answer.map(|_| ())
    }
}

#[cfg(test)]
mod numbers;
