//! One interrupt: what is known of it, and what each effect does to it.

use crate::step::Side;

/// The facts of one record, by name, with what the tables say beside it.
#[derive(Clone, Copy, Debug, Default, PartialEq, Eq)]
pub struct Interrupt {
    /// Fixed by the INTID: 0 to 15.
    pub sgi: bool,
    /// Its presence bit. Whether it is in range is the shape's matter.
    pub present: bool,
    pub enabled: bool,
    pub latch: bool,
    pub wire: bool,
    pub message_level: bool,
    pub active: bool,
    pub edge: bool,
    pub group: bool,
    pub modifier: bool,
}

impl Interrupt {
    /// "an interrupt is Non-secure exactly when group is 1, whatever the modifier"
    /// (CR 2).
    pub fn non_secure(&self) -> bool {
        self.group
    }

    /// "Bits of Secure interrupts do the same for the Non-secure side, in every
    /// family"; "Secure may name any implemented interrupt".
    pub fn open_to(&self, side: Side) -> bool {
        match side {
            Side::Secure => true,
            Side::NonSecure => self.non_secure(),
        }
    }

    /// "SGIs are edge whatever bit 32 says." Every rule asks this one (reading 8).
    pub fn edge_triggered(&self) -> bool {
        self.sgi || self.edge
    }

    /// "Pending: edge, the latch; level, latch or wire or message level."
    pub fn pending(&self) -> bool {
        if self.edge_triggered() {
            self.latch
        } else {
            self.latch || self.wire || self.message_level
        }
    }

    /// One ICFGR field is written; `edge` is its upper bit.
    pub fn configure(&mut self, edge: bool) {
        // "SGI fields read edge and ignore writes."
        // "HOUSE: a field of an enabled interrupt ignores writes"
        if self.sgi || self.enabled {
            return;
        }
        // "a write that changes the trigger clears latch and message level"
        if self.edge != edge {
            self.edge = edge;
            self.latch = false;
            self.message_level = false;
        }
    }

    /// "SETSPI does nothing if already pending; else edge sets the latch, level
    /// sets message level."
    pub fn set_by_message(&mut self) {
        if self.pending() {
            return;
        }
        if self.edge_triggered() {
            self.latch = true;
        } else {
            self.message_level = true;
        }
    }

    /// "CLRSPI clears the latch for edge, message level for level (HOUSE: not
    /// the latch there)."
    pub fn clear_by_message(&mut self) {
        if self.edge_triggered() {
            self.latch = false;
        } else {
            self.message_level = false;
        }
    }

    /// "Wire event: stores the level; a rise on an edge interrupt sets the
    /// latch." A rise is stored wire 0 to level 1 (reading 10).
    pub fn drive(&mut self, level: bool) {
        let rise = level && !self.wire;
        if rise && self.edge_triggered() {
            self.latch = true;
        }
        self.wire = level;
    }

    /// "activate: not enabled, not pending, or already active" is refused.
    pub fn can_activate(&self) -> bool {
        self.enabled && self.pending() && !self.active
    }

    /// "Activate: sets active and clears the latch; wire and message level stay."
    pub fn activate(&mut self) {
        self.active = true;
        self.latch = false;
    }

    /// "Reset (HOUSE values): all 2,012 and 96 record bytes become 0, presence
    /// stays". What the INTID and the presence bit say is no part of the record.
    pub fn reset(&mut self) {
        *self = Interrupt {
            sgi: self.sgi,
            present: self.present,
            ..Interrupt::default()
        };
    }
}
