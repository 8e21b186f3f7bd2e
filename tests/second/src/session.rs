//! One end of one session with one partner: open, receive and give.
//!
//! At each moment either bytes of ours wait for give, or one thing is awaited
//! from the partner. [`Phase`] says which, with all that belongs to it. Bytes
//! come in by [`receive`]: those of a line are gathered until its CR, then the
//! line is judged; those of a transfer go to the inbox store as they come. What
//! a line or a transfer makes us say is written down whole at once and waits;
//! give hands it out. Nothing else changes the phase.
//!
//! | Awaited | comes from | and then |
//! |---|---|---|
//! | SID | open | called: the partner's turn; caller: the prompt |
//! | prompt | SID | our SID and turn |
//! | turn | SID; our FF; an FS line; our transfers | FS line and transfers, or our turn |
//! | FS line | our block | our transfers, then the partner's turn |
//! | transfers | our FS line, if it accepts any | our turn |
//!
//! The session's state lives in [`Session`], not in the 1,024 bytes that a host
//! lends: this side is compared by what it answers and leaves, nothing else.

use crate::buffer;
use crate::fs::Sign;
use crate::memory::{Envelope, Memory, Sizes};
use crate::refusal::Refusal;
use crate::sid::{Level, Mode};
use crate::transfer::reader::Reader;
use std::collections::VecDeque;

mod answer;
mod incoming;
mod lines;
mod open;
mod our_turn;
mod receive;
mod reply;
#[cfg(test)]
mod tests;

pub use open::{open, Lent};
pub use reply::Reply;

/// "role (0 called, 1 caller)"
pub const CALLED: u8 = 0;
pub const CALLER: u8 = 1;

/// Our role.
#[derive(Clone, Copy, Debug, PartialEq, Eq)]
pub enum Role {
    Called,
    Caller,
}

impl Role {
    pub fn read(number: u8) -> Option<Role> {
        match number {
            CALLED => Some(Role::Called),
            CALLER => Some(Role::Caller),
            _ => None,
        }
    }
}

/// A proposal of the partner.
#[derive(Clone, Debug, PartialEq, Eq)]
pub struct Offer {
    pub envelope: Envelope,
    pub size: u32,
}

/// What is awaited from the partner, once nothing of ours waits.
#[derive(Clone, Debug)]
pub enum Phase {
    /// Its first line.
    Sid,
    /// At the calling end, the line that ends its greeting.
    Prompt,
    /// Its turn, of which these proposals are there: as read, and their lines "as
    /// received, their CR included".
    Turn { block: Vec<Offer>, lines: Vec<u8> },
    /// The FS line to the records at these places.
    Answer { proposed: Vec<usize> },
    /// The transfers of these proposals, the first of them under way.
    Transfers { owed: VecDeque<Offer>, reader: Reader },
    /// Nothing: our FQ is said, and once it is given the session is over.
    Quit,
    /// Nothing: the session has ended. What waits then is why, after a refusal.
    Over,
}

impl Phase {
    /// The partner's turn, of which nothing is there.
    fn new_turn() -> Phase {
        Phase::Turn { block: Vec::new(), lines: Vec::new() }
    }
}

/// What a dropped link would cut in two.
#[derive(Clone, Copy, Debug, PartialEq, Eq)]
pub enum Inside {
    /// Nothing: the last byte ended what it belongs to.
    Nothing,
    /// A line of the partner.
    Line,
    /// A transfer of the partner.
    Transfer,
    /// What we say.
    OurWords,
}

/// One end of a session.
#[derive(Clone, Debug)]
pub struct Session {
    role: Role,
    /// Whose column of the table counts.
    partner: usize,
    /// Receive and give are lent the same sizes as open was.
    sizes: Sizes,
    phase: Phase,
    mode: Mode,
    /// The level in force, by which FS lines are read.
    level: Level,
    /// Our turn just now was FF.
    our_ff: bool,
    /// The byte before was a CR after which an LF is dropped.
    after_cr: bool,
    /// The line under way.
    line: Vec<u8>,
    /// What waits for give, and how much of it is given.
    waiting: Vec<u8>,
    given: usize,
    /// Records that the partner's next whole turn marks as forwarded.
    sent: Vec<usize>,
    /// Records deferred in this session.
    deferred: Vec<usize>,
    /// After a refusal: what was awaited and what waited before the refused byte came.
    before_refusal: Option<(Phase, Vec<u8>)>,
    /// Messages kept, and the store bytes that they use.
    kept: usize,
    used: usize,
    /// Whole turns of either side, blocks of the partner's that ended bare and with their
    /// checksum, our signs, and the marks of the partner's: nothing turns on them.
    turns: usize,
    blocks: [usize; 2],
    signs: Vec<Sign>,
    marks: Vec<u8>,
}

impl Session {
    pub fn role(&self) -> Role {
        self.role
    }

    pub fn partner(&self) -> usize {
        self.partner
    }

    pub fn phase(&self) -> &Phase {
        &self.phase
    }

    pub fn mode(&self) -> Mode {
        self.mode
    }

    pub fn level(&self) -> Level {
        self.level
    }

    /// Our turn just now was FF, so the partner may say FQ and not FF.
    pub fn our_turn_was_ff(&self) -> bool {
        self.our_ff
    }

    /// How many messages of the inbox are kept.
    pub fn kept(&self) -> usize {
        self.kept
    }

    /// Store bytes that the kept messages use.
    pub fn used(&self) -> usize {
        self.used
    }

    /// How many bytes wait for give.
    pub fn waiting(&self) -> usize {
        self.waiting.len() - self.given
    }

    /// What we have still to say, by the last byte that wasn't refused: all that waits, and
    /// after a refusal what waited before it.
    pub fn unsaid(&self) -> &[u8] {
        match &self.before_refusal {
            Some((_, waited)) => waited,
            None => &self.waiting[self.given..],
        }
    }

    /// After a refusal: what was awaited before the refused byte came.
    pub fn refused_in(&self) -> Option<&Phase> {
        self.before_refusal.as_ref().map(|(phase, _)| phase)
    }

    /// Records that the partner deferred.
    pub fn deferred(&self) -> usize {
        self.deferred.len()
    }

    /// Whole turns of either side so far; FQ is none.
    pub fn turns(&self) -> usize {
        self.turns
    }

    /// Blocks of the partner's that ended with a bare `F>`, and with their checksum.
    pub fn blocks(&self) -> [usize; 2] {
        self.blocks
    }

    /// All signs that we gave.
    pub fn signs_given(&self) -> &[Sign] {
        &self.signs
    }

    /// The marks of all signs that the partner gave, letters as capitals.
    pub fn marks_heard(&self) -> &[u8] {
        &self.marks
    }

    pub fn inside(&self) -> Inside {
        match &self.phase {
            _ if self.given > 0 => Inside::OurWords,
            _ if !self.line.is_empty() => Inside::Line,
            Phase::Transfers { reader, .. } if reader.has_begun() => Inside::Transfer,
            _ => Inside::Nothing,
        }
    }

    pub fn is_over(&self) -> bool {
        matches!(self.phase, Phase::Over)
    }

    /// "Besides ending the session": "waiting bytes are dropped".
    fn end(&mut self) {
        self.phase = Phase::Over;
        self.waiting.clear();
        self.given = 0;
    }

    /// "After refusals 2 to 10, give must still hand over one line and CR".
    fn refuse(&mut self, refusal: Refusal) {
        self.before_refusal = Some((self.phase.clone(), self.unsaid().to_vec()));
        self.end();
        self.say(refusal.reason());
    }

    fn say(&mut self, bytes: &[u8]) {
        self.waiting.extend_from_slice(bytes);
    }

    /// "It writes as many waiting bytes as fit, and no other byte of the buffer
    /// changes." "Our FQ ends it when give has handed out its CR." "Give on an
    /// ended session writes nothing and answers 0 with count 0", after a refusal
    /// "once the line is taken".
    pub fn give(&mut self, memory: &Memory, buffer: &mut [u8], place: usize) -> Reply {
        if memory.sizes != self.sizes {
            return Reply::BAD_BUFFERS;
        }
        let count = buffer::put(&self.waiting, self.given, buffer, place);
        self.given += count;
        if self.waiting() == 0 {
            self.waiting.clear();
            self.given = 0;
            if matches!(self.phase, Phase::Quit) {
                self.end();
            }
        }
        Reply::ok(count)
    }
}
