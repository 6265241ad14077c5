//! Models that are wrong on purpose, in one bit or one answer and in a rare case,
//! so that the comparison can be seen to find them.

use berduzhika_model::{Answer, Refusal, Side, Step};

use crate::table::Table;

#[derive(Clone, Copy)]
pub enum Wrong {
    /// As documents 01 and 02 have it.
    Nowhere,
    /// Activation also clears message level.
    Record,
    /// A read of Distributor ISPENDR word 31 also shows bit 28, where no interrupt is.
    Answer,
    /// An activation of an interrupt with both grouping bits 1 by the Non-secure
    /// side is told 7, as if the pair were Secure.
    Side,
}

impl Wrong {
    pub fn from_word(word: Option<&str>) -> Option<Wrong> {
        match word {
            None => Some(Wrong::Nowhere),
            Some("--wrong-record") => Some(Wrong::Record),
            Some("--wrong-answer") => Some(Wrong::Answer),
            Some("--wrong-side") => Some(Wrong::Side),
            Some(_) => None,
        }
    }

    /// What the wrong model says and leaves after the right one's step.
    pub fn spoil(self, table: &mut Table, step: Step, answer: Answer) -> Answer {
        match (self, step) {
            (Wrong::Record, Step::Activate { intid, .. }) if answer.status == 0 => {
                let record = table.record(intid);
                table.spoil(intid, record & !8);
                answer
            }
            (
                Wrong::Answer,
                Step::Access {
                    write: false,
                    offset: 0x27C,
                    ..
                },
            ) if answer.status == 0 => Answer::done(answer.value | 1 << 28),
            (
                Wrong::Side,
                Step::Activate {
                    side: Side::NonSecure,
                    intid,
                },
            ) if answer.status == 0 && table.record(intid) & 0xC0 == 0xC0 => {
                Answer::refused(Refusal::NotNamed)
            }
            _ => answer,
        }
    }
}
