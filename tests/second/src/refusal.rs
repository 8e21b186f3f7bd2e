//! "The numbers given back", but 0, which is no refusal.
//!
//! Words alone can earn 2 to 5 and 7 to 10; the others need a session. 13 is
//! request Q-5's, and what we say before we hang up is Q-1's.

/// The numbers, by the proved crates' names, which `tests/places/run` holds them to.
pub const NONE: u8 = 0;
pub const BAD_MEMORY: u8 = 1;
pub const LINE_TOO_LONG: u8 = 2;
pub const NOT_SID: u8 = 3;
pub const NO_FORWARDING: u8 = 4;
pub const LINE_NOT_ALLOWED: u8 = 5;
pub const PROPOSAL_COUNT: u8 = 6;
pub const BAD_ANSWER: u8 = 7;
pub const BAD_TRANSFER: u8 = 8;
pub const BAD_CHECKSUM: u8 = 9;
pub const STORE_FULL: u8 = 10;
pub const BYTES_WAIT: u8 = 11;
pub const SESSION_ENDED: u8 = 12;
pub const WRONG_BLOCK_SUM: u8 = 13;

/// "255 for role, sizes, known BIDs or changed memory", and for the partner: the place that
/// is no record's.
pub const NO_PLACE: u8 = 255;

/// Why a call or a word is refused. The value is 01's number.
#[derive(Clone, Copy, Debug, PartialEq, Eq)]
#[repr(u8)]
pub enum Refusal {
    /// "open: bad table or buffers; receive or give: as under Lent memory"
    BadMemory = BAD_MEMORY,
    /// "a 257th byte of a line comes before CR"
    LineTooLong = LINE_TOO_LONG,
    /// "first line isn't a valid SID"
    NoSid = NOT_SID,
    /// "partner's SID has no F"
    NoForwarding = NO_FORWARDING,
    /// "a turn line that isn't allowed here"
    NotAllowed = LINE_NOT_ALLOWED,
    /// "sixth proposal, or F> with none"
    ProposalCount = PROPOSAL_COUNT,
    /// "FS line wrong in form or count"
    WrongFs = BAD_ANSWER,
    /// "transfer wrong in header, title, offset or mark"
    WrongTransfer = BAD_TRANSFER,
    /// "checksum wrong"
    WrongChecksum = BAD_CHECKSUM,
    /// "body byte without room, the 65,536th included"
    NoRoom = STORE_FULL,
    /// "a byte arrives while bytes wait for give"
    BytesWait = BYTES_WAIT,
    /// "receive on an ended session"
    Ended = SESSION_ENDED,
    /// "wrong proposal checksum"
    WrongBlockSum = WRONG_BLOCK_SUM,
}

/// "one line and CR: `*** Checksum error` for 9, `*** Protocol error` for the others"
pub const CHECKSUM_ERROR: &[u8] = b"*** Checksum error\r";
pub const PROTOCOL_ERROR: &[u8] = b"*** Protocol error\r";

/// In the table's order.
pub const ALL: [Refusal; 13] = [
    Refusal::BadMemory,
    Refusal::LineTooLong,
    Refusal::NoSid,
    Refusal::NoForwarding,
    Refusal::NotAllowed,
    Refusal::ProposalCount,
    Refusal::WrongFs,
    Refusal::WrongTransfer,
    Refusal::WrongChecksum,
    Refusal::NoRoom,
    Refusal::BytesWait,
    Refusal::Ended,
    Refusal::WrongBlockSum,
];

/// Answers go from 0 to the greatest number.
pub const ANSWERS: usize = ALL.len() + 1;

/// What give still hands over after this answer of receive.
pub fn reason_after(answer: u8) -> &'static [u8] {
    let refusal = ALL.iter().find(|refusal| refusal.number() == answer);
    refusal.map_or(b"", |refusal| refusal.reason())
}

impl Refusal {
    /// The number in 01's table.
    pub const fn number(self) -> u8 {
        self as u8
    }

    /// Request Q-1: what give still hands over after it, CR included. "01's silence
    /// after an end holds after an end with 0 or 11"; 1 and 12 end nothing; "later
    /// refusals of a partner's line count as protocol errors".
    pub const fn reason(self) -> &'static [u8] {
        match self {
            Refusal::BadMemory | Refusal::BytesWait | Refusal::Ended => b"",
            Refusal::WrongChecksum => CHECKSUM_ERROR,
            _ => PROTOCOL_ERROR,
        }
    }
}

#[cfg(test)]
mod tests {
    use super::{reason_after, ALL, ANSWERS};

    #[test]
    fn numbers_are_those_of_the_table() {
        assert_eq!(ALL.map(|r| r.number()), [1, 2, 3, 4, 5, 6, 7, 8, 9, 10, 11, 12, 13]);
        assert_eq!(ANSWERS, 14);
    }

    /// "`*** Checksum error` for 9, `*** Protocol error` for the others"
    #[test]
    fn reasons_are_those_of_the_request() {
        for answer in 0..=255 {
            let reason: &[u8] = match answer {
                9 => b"*** Checksum error\r",
                2..=8 | 10 | 13 => b"*** Protocol error\r",
                _ => b"",
            };
            assert_eq!(reason_after(answer), reason, "{answer}");
        }
    }
}
