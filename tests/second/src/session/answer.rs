//! Our FS line: which of the partner's proposals we take.

use super::{Offer, Phase, Session};
use crate::field::{same_bid, BODY_MAX};
use crate::fs::{self, Sign};
use crate::memory::Memory;
use crate::transfer::reader::Reader;

impl Session {
    /// Answers a whole block. If nothing of it is to come, "the right to propose
    /// passes to whoever sent the FS" at once: our turn follows the FS line.
    pub(super) fn answer(&mut self, memory: &Memory, block: Vec<Offer>) {
        let signs = self.signs(memory, &block);
        self.say(&fs::write(&signs));
        self.signs.extend(&signs);
        let accepted = block.into_iter().zip(signs).filter(|(_, sign)| *sign == Sign::Accept);
        let owed: std::collections::VecDeque<Offer> = accepted.map(|(offer, _)| offer).collect();
        if owed.is_empty() {
            self.say_turn(memory, false);
        } else {
            self.phase = Phase::Transfers { owed, reader: Reader::new(self.mode) };
        }
    }

    /// "Our answer, per proposal in order".
    fn signs(&self, memory: &Memory, block: &[Offer]) -> Vec<Sign> {
        let mut accepted: Vec<&Offer> = Vec::new();
        let mut signs = Vec::new();
        for offer in block {
            let sign = self.sign(memory, offer, &accepted);
            if sign == Sign::Accept {
                accepted.push(offer);
            }
            signs.push(sign);
        }
        signs
    }

    /// "`-` if the BID is in the table, the known list, the inbox, or accepted
    /// earlier in this block; else `=` if the size is over 65,535, or over the
    /// free store less the sizes accepted in this block, or no inbox place is
    /// free for it; else `+`."
    fn sign(&self, memory: &Memory, offer: &Offer, accepted: &[&Offer]) -> Sign {
        if self.is_here(memory, &offer.envelope.bid, accepted) {
            return Sign::Decline;
        }
        // DECISIONS 46: bodies kept count as they came, those accepted as
        // announced.
        let promised: usize = accepted.iter().map(|offer| offer.size as usize).sum();
        let free = memory.store.len() - self.used - promised;
        let places = memory.inbox.len() - self.kept - accepted.len();
        let size = offer.size as usize;
        if size > BODY_MAX || size > free || places == 0 {
            return Sign::Defer;
        }
        Sign::Accept
    }

    /// DECISIONS 47: table BIDs count in any state and form, and the inbox means
    /// up to this session's count.
    fn is_here(&self, memory: &Memory, bid: &[u8], accepted: &[&Offer]) -> bool {
        let table = memory.table.iter().map(|record| &record.envelope.bid);
        let known = memory.known.iter();
        let inbox = memory.inbox[..self.kept].iter().flatten();
        let inbox = inbox.map(|message| &message.envelope.bid);
        let block = accepted.iter().map(|offer| &offer.envelope.bid);
        table.chain(known).chain(inbox).chain(block).any(|other| same_bid(other, bid))
    }
}
