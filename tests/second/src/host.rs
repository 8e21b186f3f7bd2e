//! A host's buffers: the bytes that both implementations are lent.

use crate::layout;
use crate::memory::{Envelope, Record, Span, State, PARTNERS};
use crate::places;
use crate::proposal::{self, TurnLine};
use crate::record::Form;
use crate::session::Lent;
use crate::sid::Mode;

/// A message that waits in the table for every partner, with its title or name and its body.
#[derive(Clone, Debug, PartialEq, Eq)]
pub struct Letter {
    pub envelope: Envelope,
    pub size: u32,
    pub heading: Vec<u8>,
    pub body: Vec<u8>,
}

impl Letter {
    /// A letter that is proposed by this line, without CR.
    pub fn new(mode: Mode, line: &[u8], heading: &[u8], body: &[u8]) -> Letter {
        let proposal = match proposal::read(line, mode) {
            Ok(TurnLine::Proposal(proposal)) => proposal,
            _ => panic!("no proposal: {}", line.escape_ascii()),
        };
        Letter {
            envelope: Envelope::from(&proposal),
            size: proposal.size,
            heading: heading.to_vec(),
            body: body.to_vec(),
        }
    }
}

/// The eight buffers.
#[derive(Clone, Debug, Default, PartialEq, Eq)]
pub struct Buffers {
    pub session: Vec<u8>,
    pub table: Vec<u8>,
    pub titles: Vec<u8>,
    pub names: Vec<u8>,
    pub bodies: Vec<u8>,
    pub known: Vec<u8>,
    pub inbox: Vec<u8>,
    pub store: Vec<u8>,
}

impl Buffers {
    /// An empty table, no known BIDs, and an inbox of so many places and bytes.
    pub fn new(places: usize, room: usize) -> Buffers {
        Buffers {
            session: vec![0; places::SESSION],
            inbox: vec![0; places * places::ENTRY],
            store: vec![0; room],
            ..Buffers::default()
        }
    }

    /// Puts a letter at the end of the table and of its stores.
    pub fn add(&mut self, letter: &Letter) {
        let file = letter.envelope.form == Form::File;
        let (title, name): (&[u8], &[u8]) =
            if file { (b"", &letter.heading) } else { (&letter.heading, b"") };
        let record = Record {
            states: [State::Waiting; PARTNERS],
            envelope: letter.envelope.clone(),
            size: letter.size,
            title: append(&mut self.titles, title),
            name: append(&mut self.names, name),
            body: append(&mut self.bodies, &letter.body),
        };
        self.table.extend(layout::write_record(&record));
    }

    /// Puts a BID at the end of the known list.
    pub fn know(&mut self, bid: &[u8]) {
        self.known.extend(layout::write_known(bid));
    }

    pub fn lent(&self) -> Lent<'_> {
        Lent {
            session: self.session.len(),
            table: &self.table,
            titles: &self.titles,
            names: &self.names,
            bodies: &self.bodies,
            known: &self.known,
            inbox: &self.inbox,
            store: &self.store,
        }
    }
}

/// Appends to a store and says where.
pub fn append(store: &mut Vec<u8>, bytes: &[u8]) -> Span {
    let span = Span { start: store.len(), length: bytes.len() };
    store.extend_from_slice(bytes);
    span
}
