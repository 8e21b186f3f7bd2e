//! The log: what the bytes of a whole session mean, read from its end.
//!
//! Nothing here knows a session, a portion or a lent buffer. The log has all
//! bytes that went over the link before it starts, cuts the next whole line,
//! turn or transfer from them, and applies what 01 says of it under "The log".
//! It ends where no whole one is left, or at what the rules forbid.
//!
//! DECISIONS 59: it knows no store sizes, inbox places or known list, so it judges
//! neither room nor our signs.

use crate::fs::{self, Sign};
use crate::line::{is_prompt, trimmed, with_cr};
use crate::memory::{Envelope, Record, State, Stores};
use crate::proposal::{self, is_checksum_of, Proposal, TurnLine, BLOCK_LIMIT};
use crate::sid::{self, FeatureSet, Level, Mode};
use crate::transfer::writer::{write_framed, write_plain};

mod link;
#[cfg(test)]
mod tests;
mod trace;

use link::Link;
pub use trace::{Side, Trace};

/// A message kept: "with its proposal's form and fields as read, and its own
/// heading and body".
#[derive(Clone, Debug, PartialEq, Eq)]
pub struct Kept {
    pub envelope: Envelope,
    pub heading: Vec<u8>,
    pub body: Vec<u8>,
}

/// "It keeps each record's state, as open found it, and, empty at first, [...]
/// messages kept". Records sent, last proposals and transfers owed live where
/// they are read.
#[derive(Clone, Debug, PartialEq, Eq)]
pub struct Log {
    pub states: Vec<State>,
    pub kept: Vec<Kept>,
    pub sheet: Sheet,
}

/// Request Q-3's tally sheet: "records proposed, forwarded, declined, deferred, and not
/// settled yet, all 0 when open accepts".
#[derive(Clone, Copy, Debug, Default, PartialEq, Eq)]
pub struct Sheet {
    pub proposed: usize,
    pub forwarded: usize,
    pub declined: usize,
    pub deferred: usize,
    pub unsettled: usize,
}

impl Sheet {
    /// "the first is always the sum of the other four"
    pub fn adds_up(&self) -> bool {
        self.proposed == self.forwarded + self.declined + self.deferred + self.unsettled
    }
}

/// Who the session is with.
#[derive(Clone, Copy, Debug, PartialEq, Eq)]
pub struct With {
    pub we_called: bool,
    /// "Demand 3 and 01's log then read for that partner's states."
    pub partner: usize,
}

/// Reads the log of a session with this partner, which called us or which we called, on
/// this table.
pub fn read(with: With, table: &[Record], stores: &Stores, trace: &Trace) -> Log {
    let column = table.iter().map(|record| record.states[with.partner]);
    let log = Log { states: column.collect(), kept: Vec::new(), sheet: Sheet::default() };
    let mut reading = Reading {
        link: Link::new(trace),
        table,
        stores,
        mode: Mode::Plain,
        level: Level::Zero,
        asked: Vec::new(),
        accepted: Vec::new(),
        sent: Vec::new(),
        log,
    };
    // Nothing left, FQ, or a thing forbidden: the log is what it is by then.
    let _ = reading.follow(with.we_called);
    // "not settled are those proposed whose FS hasn't come, or which were accepted and
    // aren't forwarded yet"
    reading.log.sheet.unsettled = reading.asked.len() + reading.accepted.len();
    reading.log
}

/// A whole turn, or FQ in the place of one.
enum Turn<'a> {
    Nothing,
    Quit,
    Block(Vec<Proposal<'a>>),
}

struct Reading<'a> {
    link: Link<'a>,
    table: &'a [Record],
    stores: &'a Stores,
    mode: Mode,
    /// At which the partner's FS lines are read.
    level: Level,
    /// Records proposed whose FS line hasn't come.
    asked: Vec<usize>,
    /// Records accepted and not forwarded yet.
    accepted: Vec<usize>,
    /// Records sent.
    sent: Vec<usize>,
    log: Log,
}

impl<'a> Reading<'a> {
    /// The session from its first line to FQ. `None`: it broke off before.
    fn follow(&mut self, we_called: bool) -> Option<()> {
        let mut side = self.opening(we_called)?;
        let mut after_ff = false;
        loop {
            match self.turn(side)? {
                // "FQ is allowed only in answer to our FF. FF in answer to our FF
                // gets 5."
                Turn::Quit => return after_ff.then_some(()),
                Turn::Nothing if after_ff => return None,
                Turn::Nothing => {
                    self.turn_is_whole(side);
                    after_ff = true;
                }
                Turn::Block(proposals) => {
                    self.turn_is_whole(side);
                    self.exchange(side, &proposals)?;
                    after_ff = false;
                }
            }
            // "The right to propose passes to whoever sent the FS."
            side = side.other();
        }
    }

    /// "Lines under SID and opening only choose the mode", and the two SIDs together the
    /// level in force. Says whose turn is first.
    fn opening(&mut self, we_called: bool) -> Option<Side> {
        if we_called {
            let partner = self.partner_features()?;
            while !is_prompt(self.link.line(Side::Partner)?) {}
            let ours = self.our_features()?;
            self.level = Level::in_force(&ours, &partner);
            return Some(Side::Us);
        }
        let ours = self.our_features()?;
        self.link.exactly(Side::Us, b">\r")?;
        let partner = self.partner_features()?;
        self.level = Level::in_force(&ours, &partner);
        Some(Side::Partner)
    }

    /// What the partner's SID line shows; it chooses the mode.
    fn partner_features(&mut self) -> Option<FeatureSet> {
        let features = sid::judge(self.link.line(Side::Partner)?).ok()?;
        self.mode = features.mode();
        Some(features)
    }

    /// What our SID line shows, once it went over the link as we write it.
    fn our_features(&mut self) -> Option<FeatureSet> {
        self.link.exactly(Side::Us, &[sid::OURS, b"\r"].concat())?;
        sid::read(sid::OURS)
    }

    /// Cuts the next whole turn: "`FF`, or one to five proposals and `F>`". "A turn
    /// with a wrong checksum is no valid turn. We go on writing the bare form."
    fn turn(&mut self, side: Side) -> Option<Turn<'a>> {
        let mut proposals = Vec::new();
        let mut received = Vec::new();
        loop {
            let line = self.link.received_line(side)?;
            match proposal::read(trimmed(line), self.mode).ok()? {
                TurnLine::Nothing if proposals.is_empty() => return Some(Turn::Nothing),
                TurnLine::Quit if proposals.is_empty() => return Some(Turn::Quit),
                TurnLine::Proposal(next) if proposals.len() < BLOCK_LIMIT => {
                    proposals.push(next);
                    received.push(line);
                }
                TurnLine::BlockEnd if !proposals.is_empty() => return Some(Turn::Block(proposals)),
                TurnLine::SummedEnd(hh) if !proposals.is_empty() && side == Side::Partner => {
                    let lines: Vec<u8> = received.iter().flat_map(|line| with_cr(line)).collect();
                    return is_checksum_of(&lines, hh).then_some(Turn::Block(proposals));
                }
                _ => return None,
            }
        }
    }

    /// "Turn, at its last CR: [...] The partner's makes every sent record 1."
    fn turn_is_whole(&mut self, side: Side) {
        if side == Side::Partner {
            for place in self.sent.drain(..) {
                self.log.states[place] = State::Forwarded;
                self.log.sheet.forwarded += 1;
                self.accepted.retain(|&accepted| accepted != place);
            }
        }
    }

    /// What follows a block: the other side's FS line, and the accepted
    /// transfers. "FS line, at its CR: the other side owes the accepted transfers
    /// in order."
    fn exchange(&mut self, side: Side, proposals: &[Proposal<'_>]) -> Option<()> {
        // "ours are the records with those BIDs": byte by byte, since we send the
        // spelling that is stored and no other.
        let ours: Option<Vec<usize>> = match side {
            Side::Us => proposals.iter().map(|proposal| self.place(proposal.bid)).collect(),
            Side::Partner => Some(Vec::new()),
        };
        let ours = ours?;
        self.log.sheet.proposed += ours.len();
        self.asked = ours.clone();
        // "We write only `+`, `-` and `=`."
        let level = match side {
            Side::Us => self.level,
            Side::Partner => Level::Zero,
        };
        let signs = fs::read(self.link.line(side.other())?, proposals.len(), level).ok()?;
        match side {
            Side::Us => self.our_transfers(&ours, &signs),
            Side::Partner => self.partner_transfers(proposals, &signs),
        }
    }

    fn place(&self, bid: &[u8]) -> Option<usize> {
        self.table.iter().position(|record| record.envelope.bid == bid)
    }

    /// The partner's FS line "makes declined records 2". "Our owed transfer, as
    /// we write it, given whole: its record is sent."
    fn our_transfers(&mut self, ours: &[usize], signs: &[Sign]) -> Option<()> {
        self.asked.clear();
        for (&place, sign) in ours.iter().zip(signs) {
            match sign {
                Sign::Accept => self.accepted.push(place),
                Sign::Decline => {
                    self.log.states[place] = State::Declined;
                    self.log.sheet.declined += 1;
                }
                // "deferred at the FS line"
                Sign::Defer => self.log.sheet.deferred += 1,
            }
        }
        for (&place, sign) in ours.iter().zip(signs) {
            if *sign == Sign::Accept {
                let record = &self.table[place];
                let (heading, body) = (record.heading(self.stores), record.body(self.stores));
                let transfer = match self.mode {
                    Mode::Plain => write_plain(heading, body),
                    Mode::Framed => write_framed(heading, body),
                };
                self.link.exactly(Side::Us, &transfer)?;
                self.sent.push(place);
            }
        }
        Some(())
    }

    /// "Partner's owed transfer, at its last byte: kept".
    fn partner_transfers(&mut self, proposals: &[Proposal<'_>], signs: &[Sign]) -> Option<()> {
        for (proposal, sign) in proposals.iter().zip(signs) {
            if *sign == Sign::Accept {
                let (heading, body) = self.link.transfer(self.mode)?;
                self.log.kept.push(Kept { envelope: proposal.into(), heading, body });
            }
        }
        Some(())
    }
}
