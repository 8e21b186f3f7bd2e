//! The partner's transfers, and how a message comes to be kept.

use super::{Phase, Session};
use crate::memory::{Memory, Message, Span};
use crate::refusal::Refusal;
use crate::sid::Mode;
use crate::transfer::reader::Reader;
use crate::transfer::Outcome;

impl Session {
    /// Feeds the transfer under way. "Inbox store bytes past the last kept
    /// message hold the body bytes received so far of the message under way".
    pub(super) fn take_transfer(
        &mut self,
        memory: &mut Memory,
        rest: &[u8],
    ) -> (usize, Result<(), Refusal>) {
        let reader = match &mut self.phase {
            Phase::Transfers { reader, .. } => reader,
            _ => unreachable!("a transfer is awaited"),
        };
        let (taken, outcome) = reader.feed(rest, &mut memory.store[self.used..]);
        let judged = match outcome {
            Outcome::More => Ok(()),
            Outcome::Refused(refusal) => Err(refusal),
            Outcome::Whole => {
                self.keep(memory);
                Ok(())
            }
        };
        (taken, judged)
    }

    /// "A message is kept at its last byte." Then comes the next accepted one,
    /// or our turn.
    fn keep(&mut self, memory: &mut Memory) {
        let (owed, reader) = match &mut self.phase {
            Phase::Transfers { owed, reader } => (owed, reader),
            _ => unreachable!("a transfer is awaited"),
        };
        let offer = owed.pop_front().expect("a transfer under way is owed");
        let length = reader.body_length();
        memory.inbox[self.kept] = Some(Message {
            envelope: offer.envelope,
            heading: reader.heading().to_vec(),
            body: Span { start: self.used, length },
        });
        *reader = Reader::new(self.mode);
        let last = owed.is_empty();
        self.kept += 1;
        self.used += length;
        // DECISIONS 5: only the CR of a plain transfer closes it like a line.
        self.after_cr = self.mode == Mode::Plain;
        if last {
            self.say_turn(memory, false);
        }
    }
}
