//! Answers and the numbers of refusals.

/// The refusals of document 01's table "Answers and order", by number.
#[derive(Clone, Copy, Debug, PartialEq, Eq)]
pub enum Refusal {
    /// "a table length or shape number is off its limit"
    Limit = 1,
    /// "width is not 2 or 4"
    Width = 2,
    /// "offset is not a multiple of width"
    Alignment = 3,
    /// "offset above 65535"
    OutsideFrame = 4,
    /// "the aligned word holding the offset is not listed below"
    Unlisted = 5,
    /// "width 2, and not Distributor 0x40, 0x48, 0x50 or 0x58"
    HalfWord = 6,
    /// "event: INTID not implemented, or Secure and named by the Non-secure side"
    NotNamed = 7,
    /// "wire event on an SGI"
    WireOnSgi = 8,
    /// "activate: not enabled, not pending, or already active; deactivate: not active"
    WrongState = 9,
}

/// What a step gives inside the model: a value, or the first refusal that applies.
pub type Outcome = Result<u32, Refusal>;

/// An answer as the product's users see it: status 0 for done, else the refusal's number.
#[derive(Clone, Copy, Debug, PartialEq, Eq)]
pub struct Answer {
    pub status: u32,
    pub value: u32,
}

impl Answer {
    /// "done with a value (0 for a write or event)"
    pub fn done(value: u32) -> Answer {
        Answer { status: 0, value }
    }

    /// "Refused: value 0, nothing changed."
    pub fn refused(refusal: Refusal) -> Answer {
        Answer {
            status: refusal as u32,
            value: 0,
        }
    }
}

impl From<Outcome> for Answer {
    fn from(outcome: Outcome) -> Answer {
        match outcome {
            Ok(value) => Answer::done(value),
            Err(refusal) => Answer::refused(refusal),
        }
    }
}
