//! A node between two meetings, as its host has it: plain vectors.

use second::host::{Buffers, Letter};
use second::log::Kept;
use second::memory::{State, MESSAGES_MAX, PARTNERS};
use second::places;
use second::record::Form;

/// The table with its states, the BIDs known at the start, and every message
/// that it has kept since.
#[derive(Clone, Debug, Default)]
pub struct Node {
    pub letters: Vec<Letter>,
    pub states: Vec<State>,
    pub known: Vec<Vec<u8>>,
    pub kept: Vec<Kept>,
    /// Which of its partners the other node is. For the others all is declined.
    pub partner: usize,
}

/// Inbox places and store bytes lent for one meeting.
#[derive(Clone, Copy, Debug)]
pub struct Room {
    pub places: usize,
    pub bytes: usize,
}

/// How a host carries a node over to the next meeting.
#[derive(Clone, Copy, Debug, PartialEq, Eq)]
pub enum Carrying {
    /// "Between sessions kept messages move to the known list, which forgets nothing"
    Whole,
    /// A wrong host, to see that the claims can fail: what was kept isn't known.
    Forgets,
}

impl Node {
    pub fn add(&mut self, letter: Letter, state: State) {
        self.letters.push(letter);
        self.states.push(state);
    }

    /// The buffers of its next meeting, the inbox empty.
    pub fn buffers(&self, room: Room, carrying: Carrying) -> Buffers {
        let mut host = Buffers::new(room.places, room.bytes);
        self.letters.iter().for_each(|letter| host.add(letter));
        for (entry, state) in host.table.chunks_mut(places::RECORD).zip(&self.states) {
            entry[..PARTNERS].fill(State::Declined as u8);
            entry[self.partner] = *state as u8;
        }
        self.known.iter().for_each(|bid| host.know(bid));
        if carrying == Carrying::Whole {
            self.kept.iter().for_each(|kept| host.know(&kept.envelope.bid));
        }
        host
    }

    /// Room for all that this node could still send.
    pub fn room_for_all(&self) -> Room {
        let needed = |letter: &Letter| letter.body.len().max(letter.size as usize);
        let bytes = self.waiting().map(needed).sum();
        Room { places: MESSAGES_MAX, bytes }
    }

    /// The letters that wait and that a node with B in its SID may propose to another.
    pub fn waiting(&self) -> impl Iterator<Item = &Letter> {
        let all = self.letters.iter().zip(&self.states);
        all.filter(|(letter, &state)| {
            state == State::Waiting && letter.envelope.form != Form::Plain
        })
        .map(|(letter, _)| letter)
    }
}
