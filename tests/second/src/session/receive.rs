//! Receive: bytes from the link, and the order in which they are judged.

use super::{Phase, Reply, Session};
use crate::line::{self, Step, LF};
use crate::memory::Memory;
use crate::refusal::Refusal;

impl Session {
    /// "Receive consumes every byte lent to it, unless it answers 1 or 12 or the
    /// session ends on the way, and reports how many; the refused byte is the
    /// last one counted."
    pub fn receive(&mut self, memory: &mut Memory, bytes: &[u8]) -> Reply {
        // "the test under Lent memory comes first, then 12, 11, 2, then the rule
        // of the line or transfer"
        if memory.sizes != self.sizes {
            return Reply::BAD_BUFFERS;
        }
        // "Bytes arriving meanwhile get 12": the line that waits stays.
        if self.is_over() {
            return Reply::refused(Refusal::Ended, 0);
        }
        let mut count = 0;
        // FQ "ends the session at its CR: receive [...] reads no further".
        while count < bytes.len() && !self.is_over() {
            let (taken, judged) = self.take(memory, &bytes[count..]);
            count += taken;
            if let Err(refusal) = judged {
                self.refuse(refusal);
                return Reply::refused(refusal, count);
            }
        }
        Reply::ok(count)
    }

    /// Takes the next byte, or a run of a transfer's bytes, and says how many.
    fn take(&mut self, memory: &mut Memory, rest: &[u8]) -> (usize, Result<(), Refusal>) {
        // "One LF directly after the CR that ended a line, or after the CR that
        // closes a plain transfer, is dropped, also while bytes wait for give."
        let after_cr = std::mem::take(&mut self.after_cr);
        if after_cr && rest[0] == LF {
            return (1, Ok(()));
        }
        if self.waiting() > 0 {
            return (1, Err(Refusal::BytesWait));
        }
        match self.phase {
            Phase::Transfers { .. } => self.take_transfer(memory, rest),
            _ => (1, self.take_line_byte(memory, rest[0])),
        }
    }

    /// "A line ends with CR." DECISIONS 11: a line is refused at its CR, or for its length.
    fn take_line_byte(&mut self, memory: &mut Memory, byte: u8) -> Result<(), Refusal> {
        match line::step(false, self.line.len(), byte)? {
            Step::Dropped => Ok(()),
            Step::More => {
                self.line.push(byte);
                Ok(())
            }
            Step::End => {
                self.after_cr = true;
                let line = std::mem::take(&mut self.line);
                self.judge(memory, &line)
            }
        }
    }
}
