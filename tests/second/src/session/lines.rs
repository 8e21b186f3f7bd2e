//! The partner's lines: what is allowed where, and what each one does.

use super::{Offer, Phase, Role, Session};
use crate::fs::{self, Sign};
use crate::line::{is_comment, is_prompt, trimmed, with_cr};
use crate::memory::{Envelope, Memory, State};
use crate::proposal::{self, is_checksum_of, TurnLine, BLOCK_LIMIT};
use crate::refusal::Refusal;
use crate::sid::{self, Level};
use crate::transfer::writer::{write_framed, write_plain};

type Judged = Result<(), Refusal>;

impl Session {
    /// Judges a line, as received, where a line is awaited. "Spaces at the end are
    /// removed before a line is judged." "A line that begins with `;` is ignored
    /// wherever a line is awaited".
    pub(super) fn judge(&mut self, memory: &mut Memory, received: &[u8]) -> Judged {
        let line = trimmed(received);
        if is_comment(line) {
            return Ok(());
        }
        match &mut self.phase {
            Phase::Sid => self.judge_sid(line),
            Phase::Prompt => {
                self.judge_greeting(memory, line);
                Ok(())
            }
            Phase::Turn { .. } => self.judge_turn_line(memory, received),
            Phase::Answer { proposed } => {
                let proposed = std::mem::take(proposed);
                self.judge_fs(memory, line, &proposed)
            }
            Phase::Transfers { .. } | Phase::Quit | Phase::Over => {
                unreachable!("no line is awaited")
            }
        }
    }

    /// "Called: we [...] await the caller's SID, then its first turn. Caller: we
    /// await the SID, skip text lines until the prompt".
    fn judge_sid(&mut self, line: &[u8]) -> Judged {
        let features = sid::judge(line)?;
        self.mode = features.mode();
        self.level = Level::with(&features);
        self.phase = match self.role {
            Role::Called => Phase::new_turn(),
            Role::Caller => Phase::Prompt,
        };
        Ok(())
    }

    /// "skip text lines until the prompt, then send SID and first turn"
    fn judge_greeting(&mut self, memory: &Memory, line: &[u8]) {
        if is_prompt(line) {
            self.say(sid::OURS);
            self.say(b"\r");
            self.say_turn(memory, false);
        }
    }

    /// "A turn is `FF`, or one to five proposals and `F>`." "FQ is allowed only
    /// in answer to our FF. FF in answer to our FF gets 5." "A malformed or
    /// forbidden line gets 5 before 6 is thought of." 13 is "tested after 5 and 6
    /// and before any answer is formed".
    fn judge_turn_line(&mut self, memory: &mut Memory, received: &[u8]) -> Judged {
        let (block, lines) = match &mut self.phase {
            Phase::Turn { block, lines } => (block, lines),
            _ => unreachable!("a turn is awaited"),
        };
        match proposal::read(trimmed(received), self.mode)? {
            TurnLine::Nothing if block.is_empty() && !self.our_ff => {
                self.mark_sent(memory);
                self.say_turn(memory, true);
            }
            TurnLine::Quit if block.is_empty() && self.our_ff => self.end(),
            TurnLine::Nothing | TurnLine::Quit => return Err(Refusal::NotAllowed),
            TurnLine::Proposal(_) if block.len() == BLOCK_LIMIT => {
                return Err(Refusal::ProposalCount)
            }
            TurnLine::Proposal(p) => {
                block.push(Offer { envelope: Envelope::from(&p), size: p.size });
                lines.extend(with_cr(received));
            }
            TurnLine::BlockEnd | TurnLine::SummedEnd(_) if block.is_empty() => {
                return Err(Refusal::ProposalCount)
            }
            TurnLine::SummedEnd(checksum) if !is_checksum_of(lines, checksum) => {
                return Err(Refusal::WrongBlockSum)
            }
            end @ (TurnLine::BlockEnd | TurnLine::SummedEnd(_)) => {
                self.blocks[usize::from(end != TurnLine::BlockEnd)] += 1;
                let block = std::mem::take(block);
                self.mark_sent(memory);
                self.answer(memory, block);
            }
        }
        Ok(())
    }

    /// "State 1 is set at the CR that ends the partner's next whole valid turn."
    fn mark_sent(&mut self, memory: &mut Memory) {
        self.turns += 1;
        for place in self.sent.drain(..) {
            memory.table[place].states[self.partner] = State::Forwarded;
        }
    }

    /// "`-` sets state 2 at the CR of a valid line. A deferred record stays 0.
    /// Accepted records are sent in order." Refusal 7: "no answer of that line is
    /// recorded".
    fn judge_fs(&mut self, memory: &mut Memory, line: &[u8], proposed: &[usize]) -> Judged {
        let signs = fs::read(line, proposed.len(), self.level)?;
        self.marks.extend(fs::marks(line));
        for (&place, sign) in proposed.iter().zip(signs) {
            match sign {
                Sign::Accept => self.send(memory, place),
                Sign::Decline => memory.table[place].states[self.partner] = State::Declined,
                Sign::Defer => self.deferred.push(place),
            }
        }
        // "The right to propose passes to whoever sent the FS."
        self.phase = Phase::new_turn();
        Ok(())
    }

    /// A record's transfer waits; it counts as sent once the partner's next turn
    /// comes, and no byte of that is taken while the transfer waits.
    fn send(&mut self, memory: &Memory, place: usize) {
        let record = &memory.table[place];
        let (heading, body) = (record.heading(&memory.stores), record.body(&memory.stores));
        let transfer = match self.mode {
            sid::Mode::Plain => write_plain(heading, body),
            sid::Mode::Framed => write_framed(heading, body),
        };
        self.say(&transfer);
        self.sent.push(place);
    }
}
