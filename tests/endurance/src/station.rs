//! One end of a link: the library alone, or held to the second implementation.

use fuzz::lent::{Memory, INBOX, SESSION, STORE, TABLE};
use fuzz::library;
use fuzz::pair::Pair;
use fuzz::report::Checked;
use inputs::random::Random;
use second::host::Buffers;
use second::layout::{read_message, read_record};
use second::log::Kept;
use second::memory::State;
use second::places;
use second::session::Reply;

pub trait Station {
    fn open(&mut self, role: u8, partner: u8) -> Checked<Reply>;
    /// Bytes from the link.
    fn receive(&mut self, bytes: &[u8]) -> Checked<Reply>;
    /// So many bytes at most that the link takes now.
    fn give(&mut self, random: &mut Random, room: usize) -> Checked<Vec<u8>>;
}

/// The library alone.
pub struct Bare {
    memory: Memory,
    buffer: Vec<u8>,
}

impl Bare {
    pub fn new(random: &mut Random, host: &Buffers) -> Bare {
        Bare { memory: Memory::new(random, host), buffer: Vec::new() }
    }

    /// For one partner.
    pub fn states(&self, partner: u8) -> Vec<State> {
        let column = usize::from(partner);
        let entries = self.memory.part(TABLE).chunks(places::RECORD);
        entries.map(|entry| read_record(entry).expect("a record").states[column]).collect()
    }

    pub fn kept(&self) -> Vec<Kept> {
        let count = usize::from(self.memory.part(SESSION)[places::KEPT]);
        let entries = self.memory.part(INBOX).chunks(places::ENTRY).take(count);
        let messages = entries.map(|entry| read_message(entry).expect("a message"));
        let store = self.memory.part(STORE);
        let kept = messages.map(|message| Kept {
            body: message.body.of(store).expect("a body in the store").to_vec(),
            envelope: message.envelope,
            heading: message.heading,
        });
        kept.collect()
    }
}

impl Station for Bare {
    fn open(&mut self, role: u8, partner: u8) -> Checked<Reply> {
        Ok(library::open(role, partner, self.memory.lend(None)))
    }

    fn receive(&mut self, bytes: &[u8]) -> Checked<Reply> {
        Ok(library::receive(self.memory.lend(None), bytes))
    }

    fn give(&mut self, _: &mut Random, room: usize) -> Checked<Vec<u8>> {
        self.buffer.resize(room, 0);
        let count = library::give(self.memory.lend(None), &mut self.buffer, 0).count;
        Ok(self.buffer[..count].to_vec())
    }
}

/// Both implementations, compared after every call.
pub struct Compared(pub Pair);

impl Compared {
    pub fn states(&self) -> Vec<State> {
        let second = self.0.second().expect("an accepted open");
        let partner = second.session.partner();
        second.memory.table.iter().map(|record| record.states[partner]).collect()
    }

    pub fn kept(&self) -> Vec<Kept> {
        let second = self.0.second().expect("an accepted open");
        let messages = second.memory.inbox[..second.session.kept()].iter().flatten();
        let kept = messages.map(|message| Kept {
            envelope: message.envelope.clone(),
            heading: message.heading.clone(),
            body: message.body.of(&second.memory.store).expect("a body in the store").to_vec(),
        });
        kept.collect()
    }
}

impl Station for Compared {
    fn open(&mut self, role: u8, partner: u8) -> Checked<Reply> {
        self.0.open(role, partner)
    }

    fn receive(&mut self, bytes: &[u8]) -> Checked<Reply> {
        self.0.receive(bytes, None)
    }

    fn give(&mut self, random: &mut Random, room: usize) -> Checked<Vec<u8>> {
        let before = self.0.second().map_or(0, |second| second.trace().bytes(OURS).len());
        self.0.give(random, (room, 0), None)?;
        let second = self.0.second().expect("an accepted open");
        Ok(second.trace().bytes(OURS)[before..].to_vec())
    }
}

const OURS: second::log::Side = second::log::Side::Us;
