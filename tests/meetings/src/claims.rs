//! The claims of requests, on plain vectors of letters, states and kept
//! messages. Nothing here is taken from the library: what both nodes were at the
//! start and are now is all that it sees, and the bytes that crossed the link.

use crate::node::Node;
use second::host::Letter;
use second::log::Kept;
use second::memory::State;
use second::record::Form;
use second::tally::Tally;

/// A node at the start of a series and now.
#[derive(Clone, Copy)]
pub struct Course<'a> {
    pub start: &'a Node,
    pub now: &'a Node,
}

/// "by Q-2's rule": "when they agree after A-Z and a-z are taken as one"
fn same_bid(one: &[u8], other: &[u8]) -> bool {
    let folded = |bid: &[u8]| bid.iter().map(u8::to_ascii_lowercase).collect::<Vec<u8>>();
    folded(one) == folded(other)
}

fn copies(bid: &[u8], kept: &[Kept]) -> usize {
    kept.iter().filter(|kept| same_bid(&kept.envelope.bid, bid)).count()
}

fn in_table(bid: &[u8], letters: &[Letter]) -> bool {
    letters.iter().any(|letter| same_bid(&letter.envelope.bid, bid))
}

fn is_whole(letter: &Letter, kept: &Kept) -> bool {
    letter.envelope == kept.envelope && letter.heading == kept.heading && letter.body == kept.body
}

/// What holds at any time of our records, by what the other has.
pub fn settled(ours: Course<'_>, theirs: Course<'_>) -> Result<(), String> {
    let records = ours.start.letters.iter().zip(&ours.start.states).zip(&ours.now.states);
    for ((letter, &before), &after) in records {
        let bid = &letter.envelope.bid;
        let right = match (before, after) {
            (State::Waiting, State::Waiting) => true,
            // "has been kept whole at the other, once"
            (State::Waiting, State::Forwarded) => {
                copies(bid, &theirs.now.kept) == 1
                    && theirs.now.kept.iter().any(|kept| is_whole(letter, kept))
            }
            // "has a BID of the other's table, known list or inbox"
            (State::Waiting, State::Declined) => {
                in_table(bid, &theirs.start.letters)
                    || theirs.start.known.iter().any(|known| same_bid(known, bid))
                    || copies(bid, &theirs.now.kept) > 0
            }
            // What didn't wait at the start is as it was.
            (before, after) => before == after,
        };
        if !right {
            let bid = bid.escape_ascii();
            return Err(format!("{bid} was {before:?} and is {after:?}, which isn't so there"));
        }
    }
    Ok(())
}

/// "No drop at any byte makes a second kept copy.": what an end has kept is new to
/// it, and is a record of the other's.
pub fn once(ours: Course<'_>, theirs: Course<'_>) -> Result<(), String> {
    for kept in &ours.now.kept {
        let bid = &kept.envelope.bid;
        let had = in_table(bid, &ours.start.letters)
            || ours.start.known.iter().any(|known| same_bid(known, bid));
        let said = bid.escape_ascii();
        if had || copies(bid, &ours.now.kept) != 1 {
            return Err(format!("{said} was kept though it was there"));
        }
        if !theirs.start.letters.iter().any(|letter| is_whole(letter, kept)) {
            return Err(format!("{said} was kept and is no record of the other's"));
        }
    }
    Ok(())
}

/// "only plain records and those deferred in that session still wait"
pub fn none_left(now: &Node, deferred: &[Vec<u8>]) -> Result<(), String> {
    for (letter, &state) in now.letters.iter().zip(&now.states) {
        let bid = &letter.envelope.bid;
        let may_wait = letter.envelope.form == Form::Plain || deferred.contains(bid);
        if state == State::Waiting && !may_wait {
            return Err(format!("FQ came and {} still waits", bid.escape_ascii()));
        }
    }
    Ok(())
}

/// A record that doesn't wait is never marked again.
pub fn marks_stand(before: &[State], after: &[State]) -> Result<(), String> {
    let again = |(old, new): (&State, &State)| *old != State::Waiting && old != new;
    if before.iter().zip(after).any(again) || before.len() != after.len() {
        return Err(format!("marks were {before:?} and are {after:?}"));
    }
    Ok(())
}

/// Request Q-3, by what an end gave and took in a meeting: the BIDs that it proposed and
/// those of them that were deferred; and by its states before the meeting.
pub struct Sheet<'a> {
    pub before: &'a [State],
    pub proposed: usize,
    pub deferred: usize,
}

/// What the front panel shows after a meeting is what has become of the records.
pub fn tallied(shown: Tally, now: &Node, sheet: Sheet<'_>) -> Result<(), String> {
    let Sheet { before, proposed, deferred } = sheet;
    let letters = now.letters.iter().zip(&now.states);
    let waiting = letters.filter(|(_, &state)| state == State::Waiting);
    let marked = |mark: State| {
        let marks = before.iter().zip(&now.states);
        marks.filter(|(&old, &new)| old == State::Waiting && new == mark).count()
    };
    let (forwarded, declined) = (marked(State::Forwarded), marked(State::Declined));
    let expected = Tally {
        waiting: waiting.clone().count(),
        sizes: waiting.map(|(letter, _)| letter.size as usize).sum(),
        sheet: second::log::Sheet {
            proposed,
            forwarded,
            declined,
            deferred,
            unsettled: proposed.saturating_sub(forwarded + declined + deferred),
        },
    };
    if shown != expected {
        return Err(format!("the front panel shows {shown:?}, and it is {expected:?}"));
    }
    Ok(())
}
