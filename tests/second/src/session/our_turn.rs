//! Our turn: which records we propose, or that there is nothing more.

use super::{Phase, Session};
use crate::memory::{Memory, Record, State};
use crate::proposal::{self, block_length, TurnLine};
use crate::record::Form;
use crate::sid::Mode;

impl Session {
    /// "If none remains: FF, or FQ if the partner's turn just now was FF."
    pub(super) fn say_turn(&mut self, memory: &Memory, partner_ff: bool) {
        let proposed = self.block(memory);
        self.our_ff = proposed.is_empty() && !partner_ff;
        for &place in &proposed {
            let record = &memory.table[place];
            let proposal = record.envelope.proposal(record.size);
            self.say(&proposal::write(&TurnLine::Proposal(proposal)));
        }
        let (last, phase) = match (proposed.is_empty(), partner_ff) {
            (false, _) => (TurnLine::BlockEnd, Phase::Answer { proposed }),
            (true, false) => (TurnLine::Nothing, Phase::new_turn()),
            (true, true) => (TurnLine::Quit, Phase::Quit),
        };
        self.say(&proposal::write(&last));
        self.turns += usize::from(last != TurnLine::Quit);
        self.phase = phase;
    }

    /// The places of the records in our next block. "We propose waiting records
    /// in table order: form 0 in plain mode, 1 and 2 in framed mode, none
    /// deferred in this session." They wait for the session's partner.
    fn block(&self, memory: &Memory) -> Vec<usize> {
        let in_mode = |record: &Record| match record.envelope.form {
            Form::Plain => self.mode == Mode::Plain,
            Form::Message | Form::File => self.mode == Mode::Framed,
        };
        let may = |place: &usize| {
            let record = &memory.table[*place];
            record.states[self.partner] == State::Waiting
                && in_mode(record)
                && !self.deferred.contains(place)
        };
        let mut places: Vec<usize> = (0..memory.table.len()).filter(may).collect();
        let sizes: Vec<u32> = places.iter().map(|&place| memory.table[place].size).collect();
        places.truncate(block_length(&sizes));
        places
    }
}
