//! A capture played on both implementations, which are compared after every
//! call.

use crate::capture::Capture;
use crate::shelf::Shelf;
use fuzz::pair::{Pair, Second};
use fuzz::report::Checked;
use inputs::random::Random;
use second::log::{Sheet, Side};
use second::memory::State;
use second::refusal;
use second::tally::Tally;
use std::fmt::{self, Display};

/// Whom our node has the mailbox for.
const PARTNER: u8 = 4;

/// What our node makes of a capture.
#[derive(Clone, Debug, PartialEq, Eq)]
pub struct Outcome {
    we_called: bool,
    /// The first answer of receive that refused, or 0.
    pub answer: u8,
    /// Bytes consumed, of how many.
    consumed: usize,
    peer: usize,
    /// By FQ; a refused session is over too.
    over: bool,
    given: usize,
    /// What we said after a refusal, without its CR.
    reason: String,
    /// What the stand-in said, with our SID for its own, and where what we gave
    /// leaves that.
    captured: usize,
    leaves: Option<usize>,
    /// BIDs of our records by state.
    states: [Vec<String>; 3],
    /// BID and body bytes of the messages kept.
    pub kept: Vec<(String, usize)>,
    /// What the front panel shows.
    tally: Tally,
}

/// Plays a capture in portions of so many bytes. What we say is taken where the
/// stand-in spoke, and nowhere else.
pub fn play(random: &mut Random, capture: &Capture, portion: usize) -> Checked<Outcome> {
    let shelf = Shelf::of(capture);
    let mut pair = Pair::new(random, &shelf.buffers());
    pair.open(capture.we_called().into(), PARTNER)?;
    let mut answer = refusal::NONE;
    for (at, said) in capture.script.iter().enumerate() {
        let last = at + 1 == capture.script.len();
        if said.ours {
            let most = if shelf.dropped && last { said.bytes.len() } else { usize::MAX };
            take(random, &mut pair, portion, most)?;
        } else {
            answer = hear(&mut pair, &said.bytes, portion)?;
        }
        // A refused session hears nothing more.
        if answer != refusal::NONE {
            break;
        }
    }
    let before = given(&pair);
    // Where the mailbox had the last word, ours comes after it; after a refusal that is why.
    let cut = shelf.dropped && answer == refusal::NONE;
    take(random, &mut pair, portion, if cut { 0 } else { usize::MAX })?;
    let over = pair.receive(b"", None)?.answer == refusal::SESSION_ENDED;
    pair.demand_3()?;
    let before = if answer == refusal::NONE { given(&pair) } else { before };
    let second = pair.second().expect("open accepted");
    let outcome = Outcome::read(capture, second, answer, over, before);
    // After a drop the host can open again on what stands.
    pair.open(capture.we_called().into(), PARTNER)?;
    Ok(outcome)
}

/// Bytes given so far.
fn given(pair: &Pair) -> usize {
    pair.second().map_or(0, |second| second.trace().bytes(Side::Us).len())
}

/// The link takes what waits, in portions, and at most so many bytes.
fn take(random: &mut Random, pair: &mut Pair, portion: usize, most: usize) -> Checked {
    let mut left = most;
    loop {
        let room = portion.min(left).min(100_000);
        let count = pair.give(random, (room, 0), None)?.count;
        pair.demand_3()?;
        left -= count;
        if count == 0 {
            return Ok(());
        }
    }
}

/// The link brings what the mailbox said, in portions, up to a refusal or FQ.
fn hear(pair: &mut Pair, bytes: &[u8], portion: usize) -> Checked<u8> {
    for part in bytes.chunks(portion) {
        let reply = pair.receive(part, None)?;
        pair.demand_3()?;
        match reply.answer {
            0 => {}
            // DECISIONS 40: what follows FQ, an LF included, is not read.
            12 => return Ok(0),
            refused => return Ok(refused),
        }
    }
    Ok(0)
}

impl Outcome {
    /// `before`: bytes given before a refusal.
    fn read(capture: &Capture, second: &Second, answer: u8, over: bool, before: usize) -> Outcome {
        let (given, reason) = second.trace().bytes(Side::Us).split_at(before);
        let captured = capture.with_our_sid();
        let leaves = (0..given.len()).find(|&at| captured.get(at) != Some(&given[at]));
        let states = [State::Waiting, State::Forwarded, State::Declined].map(|state| {
            let records = second
                .memory
                .table
                .iter()
                .filter(|record| record.states[second.session.partner()] == state);
            records.map(|record| shown(&record.envelope.bid)).collect()
        });
        let messages = second.memory.inbox[..second.session.kept()].iter().flatten();
        let kept = messages.map(|m| (shown(&m.envelope.bid), m.body.length)).collect();
        Outcome {
            we_called: capture.we_called(),
            answer,
            consumed: second.trace().bytes(Side::Partner).len(),
            peer: capture.bytes(false).len(),
            over,
            given: given.len(),
            reason: shown(reason.strip_suffix(b"\r").unwrap_or(reason)),
            captured: captured.len(),
            leaves,
            states,
            kept,
            tally: second.tally,
        }
    }
}

fn shown(bid: &[u8]) -> String {
    bid.escape_ascii().to_string()
}

impl Display for Outcome {
    fn fmt(&self, f: &mut fmt::Formatter<'_>) -> fmt::Result {
        let Outcome { answer, consumed, peer, given, captured, .. } = self;
        write!(f, "{}; ", if self.we_called { "caller" } else { "called" })?;
        match (answer, self.over) {
            (0, true) => write!(f, "ends by FQ, {consumed} of {peer} bytes heard")?,
            (0, false) => write!(f, "goes on, {consumed} of {peer} bytes heard")?,
            _ if self.reason.is_empty() => {
                write!(f, "refusal {answer} at byte {consumed} of {peer}")?
            }
            _ => write!(f, "refusal {answer} at byte {consumed} of {peer}, `{}`", self.reason)?,
        }
        match self.leaves {
            None => write!(f, "; said {given} of {captured} bytes as captured")?,
            Some(at) => write!(f, "; said {given} bytes, the first {at} as captured")?,
        }
        for (state, bids) in ["waiting", "forwarded", "declined"].iter().zip(&self.states) {
            if !bids.is_empty() {
                write!(f, "; {state} {}", bids.join(" "))?;
            }
        }
        for (bid, length) in &self.kept {
            write!(f, "; kept {bid} with {length} bytes")?;
        }
        let Sheet { proposed, forwarded, declined, deferred, unsettled } = self.tally.sheet;
        if proposed > 0 {
            let Tally { waiting, sizes, .. } = self.tally;
            write!(f, "; {proposed} proposed: {forwarded} forwarded, {declined} declined, ")?;
            write!(
                f,
                "{deferred} deferred, {unsettled} not settled; {waiting} wait, {sizes} bytes"
            )?;
        }
        Ok(())
    }
}
