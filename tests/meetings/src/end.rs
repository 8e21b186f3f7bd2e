//! One end of one meeting: the library on a node's buffers.

use crate::node::{Carrying, Node, Room};
use fuzz::library::{self, Lent};
use second::host::Buffers;
use second::layout::{self, read_message, read_tally, SESSION_TALLY};
use second::log::Kept;
use second::memory::State;
use second::phase::{self, reading};
use second::places;
use second::refusal::{
    self, BAD_ANSWER, BAD_CHECKSUM, BAD_TRANSFER, BYTES_WAIT, LINE_NOT_ALLOWED, NONE, NOT_SID,
    STORE_FULL,
};
use second::session::{Reply, CALLED, CALLER};
use second::tally::Tally;

/// What an end makes of the next byte.
#[derive(Clone, Copy, Debug, PartialEq, Eq)]
pub enum Awaited {
    Sid,
    Prompt,
    Turn,
    Fs,
    Title,
    Body,
    /// Data of a framed block.
    Block,
    /// Another byte of a framed transfer.
    Frame,
    /// Nothing: bytes of ours wait.
    OurWords,
}

impl Awaited {
    pub const ALL: [Awaited; 9] = [
        Awaited::Sid,
        Awaited::Prompt,
        Awaited::Turn,
        Awaited::Fs,
        Awaited::Title,
        Awaited::Body,
        Awaited::Block,
        Awaited::Frame,
        Awaited::OurWords,
    ];

    /// What a line that says why can come to there: it is no SID, no turn and no FS line;
    /// it is a title, a body, or data, which may end inside it or pass the room. `amid`:
    /// after other bytes of a line, which may be a `;` line or an FS line too long.
    pub fn answers(self, amid: bool) -> &'static [u8] {
        match self {
            Awaited::Sid if amid => &[NONE, NOT_SID],
            Awaited::Sid => &[NOT_SID],
            Awaited::Prompt => &[NONE],
            Awaited::Turn if amid => &[NONE, LINE_NOT_ALLOWED],
            Awaited::Turn => &[LINE_NOT_ALLOWED],
            Awaited::Fs if amid => &[NONE, LINE_NOT_ALLOWED, BAD_ANSWER],
            Awaited::Fs => &[LINE_NOT_ALLOWED],
            Awaited::Title => &[NONE],
            Awaited::Body => &[NONE, BAD_TRANSFER, STORE_FULL],
            Awaited::Block => &[NONE, BAD_TRANSFER, BAD_CHECKSUM, STORE_FULL],
            Awaited::Frame => &[NONE, BAD_TRANSFER, BAD_CHECKSUM, STORE_FULL],
            Awaited::OurWords => &[BYTES_WAIT],
        }
    }
}

pub struct End {
    host: Buffers,
    partner: usize,
    /// The buffers as open found them.
    before: Buffers,
    /// All bytes given so far, and how many of the other end's were taken.
    pub given: Vec<u8>,
    pub taken: usize,
    /// FQ came whole: the session was live, receive answered 0, and it is over.
    pub fq_came: bool,
    /// The refusal that ended it, or 0, and how much was given before it.
    pub refusal: u8,
    pub refused_at: Option<usize>,
    buffer: Vec<u8>,
}

impl End {
    pub fn open(node: &Node, room: Room, caller: bool, carrying: Carrying) -> Result<End, String> {
        let host = node.buffers(room, carrying);
        let mut end = End {
            before: host.clone(),
            host,
            partner: node.partner,
            given: Vec::new(),
            taken: 0,
            fq_came: false,
            refusal: NONE,
            refused_at: None,
            buffer: Vec::new(),
        };
        let role = if caller { CALLER } else { CALLED };
        let reply = library::open(role, node.partner as u8, end.lent());
        match reply.answer {
            NONE => Ok(end),
            answer => Err(format!("open answers {answer}, place {}", reply.place)),
        }
    }

    fn lent(&mut self) -> Lent<'_> {
        let Buffers { session, table, titles, names, bodies, known, inbox, store } = &mut self.host;
        Lent { session, table, titles, names, bodies, known, inbox, store }
    }

    /// Gives into a buffer of so many bytes; how many it gave.
    pub fn give(&mut self, room: usize) -> usize {
        let mut buffer = std::mem::take(&mut self.buffer);
        buffer.resize(room, 0);
        let Reply { count, .. } = library::give(self.lent(), &mut buffer, 0);
        self.given.extend_from_slice(&buffer[..count]);
        self.buffer = buffer;
        count
    }

    /// What a live end awaits.
    pub fn awaited(&self) -> Awaited {
        let session = &self.host.session;
        let in_block = session[places::LEFT..][..2] != [0, 0];
        let waits = session[places::FIRST..=places::THEN] != [phase::PIECE_NONE; 2];
        match (session[places::PHASE], session[places::PLACE]) {
            _ if waits => Awaited::OurWords,
            (phase::CALLED_SID | phase::CALLER_SID, _) => Awaited::Sid,
            (phase::PROMPT, _) => Awaited::Prompt,
            (phase::TURN, _) => Awaited::Turn,
            (phase::FS, _) => Awaited::Fs,
            (_, reading::TITLE) => Awaited::Title,
            (_, reading::BODY | reading::MARK) => Awaited::Body,
            (_, reading::DATA) if in_block => Awaited::Block,
            _ => Awaited::Frame,
        }
    }

    /// Bytes of a line are there already.
    pub fn is_amid_a_line(&self) -> bool {
        self.host.session[places::LINE_LENGTH..][..2] != [0, 0]
    }

    /// The table with its states, how many messages are kept, and the front panel's numbers.
    pub fn settled(&self) -> Vec<u8> {
        let session = &self.host.session;
        [&self.host.table[..], &[session[places::KEPT]], &session[SESSION_TALLY]].concat()
    }

    /// What the front panel shows.
    pub fn tally(&self) -> Tally {
        read_tally(&self.host.session)
    }

    pub fn is_live(&mut self) -> bool {
        library::receive(self.lent(), &[]).answer == NONE
    }

    /// Bytes from the link; how many it consumed.
    pub fn receive(&mut self, bytes: &[u8]) -> usize {
        if !self.is_live() {
            return 0;
        }
        let Reply { answer, count, .. } = library::receive(self.lent(), bytes);
        self.taken += count;
        if answer != NONE {
            self.refusal = answer;
            self.refused_at = Some(self.given.len());
        } else if library::receive(self.lent(), &[]).answer == refusal::SESSION_ENDED {
            self.fq_came = true;
        }
        count
    }

    /// The node after the meeting, or what was written that may not be.
    pub fn leave(&self, node: &mut Node) -> Result<(), String> {
        node.states = self.states()?;
        node.kept.extend(self.kept()?);
        Ok(())
    }

    /// "The tables and their stores carry over, and only the sessions write
    /// them": states alone, and of those the other node's.
    fn states(&self) -> Result<Vec<State>, String> {
        let (now, before) = (&self.host, &self.before);
        let same_stores = now.titles == before.titles
            && now.names == before.names
            && now.bodies == before.bodies
            && now.known == before.known;
        let mut states = Vec::new();
        for (entry, old) in
            now.table.chunks(places::RECORD).zip(before.table.chunks(places::RECORD))
        {
            let rest = |entry: &[u8]| [&entry[..self.partner], &entry[self.partner + 1..]].concat();
            if rest(entry) != rest(old) || !same_stores {
                return Err("a record or a store was written".into());
            }
            let state = entry[self.partner];
            states.push(layout::state(state.into()).ok_or_else(|| format!("a state is {state}"))?);
        }
        Ok(states)
    }

    fn kept(&self) -> Result<Vec<Kept>, String> {
        let count = usize::from(self.host.session[places::KEPT]);
        let entries = self.host.inbox.chunks(places::ENTRY).take(count);
        let read = |entry: &[u8]| {
            let message = read_message(entry)?;
            let body = message.body.of(&self.host.store)?.to_vec();
            Some(Kept { envelope: message.envelope, heading: message.heading, body })
        };
        entries.map(|entry| read(entry).ok_or_else(|| "no message in the inbox".into())).collect()
    }
}
