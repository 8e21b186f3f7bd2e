//! Request Q-3: what the front panel shows. "how many records wait and the sum of their
//! announced sizes" are counted in the table; the tally sheet is read by the log.
//!
//! "Proposed counts at the received byte that our turn answers", before the link has taken
//! that turn. So the log is told what crossed the link and then what we have still to say.
//! "After a refusal the numbers stay at their last state": it is told the bytes before the
//! refused one and what waited then, and nothing after that, our line that says why included.

use crate::log::{self, Sheet, Trace, With};
use crate::memory::{Record, State, Stores};
use crate::session::{Reply, Session};

/// The seven numbers.
#[derive(Clone, Copy, Debug, Default, PartialEq, Eq)]
pub struct Tally {
    pub waiting: usize,
    pub sizes: usize,
    pub sheet: Sheet,
}

/// "All numbers of Q-3 are for the partner of the session." Every record whose state is 0
/// waits, of whatever form, and one that was deferred too.
pub fn waiting(partner: usize, table: &[Record]) -> (usize, usize) {
    let waits = table.iter().filter(|record| record.states[partner] == State::Waiting);
    (waits.clone().count(), waits.map(|record| record.size as usize).sum())
}

/// What the log is told for the tally sheet.
#[derive(Clone, Debug, Default)]
pub struct Told {
    crossed: Trace,
}

impl Told {
    /// What a call of receive was lent.
    pub fn received(&mut self, bytes: &[u8], reply: Reply) {
        let refused = usize::from(reply.refuses_a_byte());
        self.crossed.consumed(&bytes[..reply.count - refused]);
    }

    /// What a call of give handed over, once the session has had it.
    pub fn given(&mut self, session: &Session, bytes: &[u8]) {
        if session.refused_in().is_none() {
            self.crossed.given(bytes);
        }
    }

    /// The numbers after these calls, on the table as open found it and as it is.
    pub fn tally(
        &self,
        with: With,
        session: &Session,
        (opened, now): (&[Record], &[Record]),
        stores: &Stores,
    ) -> Tally {
        let mut trace = self.crossed.clone();
        trace.given(session.unsaid());
        let (waiting, sizes) = waiting(with.partner, now);
        Tally { waiting, sizes, sheet: log::read(with, opened, stores, &trace).sheet }
    }
}
