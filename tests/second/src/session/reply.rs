//! What a call gives back.

use crate::refusal::{self, Refusal};

/// The number, the place and the count. "Place is 0 in every answer but 1."
#[derive(Clone, Copy, Debug, PartialEq, Eq)]
pub struct Reply {
    pub answer: u8,
    pub place: u8,
    pub count: usize,
}

impl Reply {
    /// "255 for role, sizes, known BIDs or changed memory", and for the partner
    pub const BAD_BUFFERS: Reply = Reply::bad_memory(refusal::NO_PLACE);

    /// "no refusal"
    pub const fn ok(count: usize) -> Reply {
        Reply { answer: refusal::NONE, place: 0, count }
    }

    /// Refused; "the refused byte is the last one counted".
    pub const fn refused(refusal: Refusal, count: usize) -> Reply {
        Reply { answer: refusal.number(), place: 0, count }
    }

    /// A byte was refused, and the session is over: neither 0 nor 1, nor 12, which consumes
    /// nothing.
    pub const fn refuses_a_byte(&self) -> bool {
        !matches!(self.answer, refusal::NONE | refusal::BAD_MEMORY | refusal::SESSION_ENDED)
    }

    /// "place = first bad record, from 0"
    pub const fn bad_memory(place: u8) -> Reply {
        Reply { answer: Refusal::BadMemory.number(), place, count: 0 }
    }
}
