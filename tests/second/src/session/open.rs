//! Open: what is lent, judged.

use super::{Phase, Reply, Role, Session};
use crate::field::{is_bid, same_bid};
use crate::layout;
use crate::memory::{Memory, Record, Sizes, Stores};
use crate::memory::{KNOWN_MAX, MESSAGES_MAX, PARTNERS, RECORDS_MAX};
use crate::places;
use crate::sid::{self, Level, Mode};

/// The buffers that a host lends, as bytes. Of session memory only the size
/// counts here.
#[derive(Clone, Copy, Debug)]
pub struct Lent<'a> {
    pub session: usize,
    pub table: &'a [u8],
    pub titles: &'a [u8],
    pub names: &'a [u8],
    pub bodies: &'a [u8],
    pub known: &'a [u8],
    pub inbox: &'a [u8],
    pub store: &'a [u8],
}

impl Lent<'_> {
    pub fn sizes(&self) -> Sizes {
        Sizes {
            session: self.session,
            table: self.table.len(),
            titles: self.titles.len(),
            names: self.names.len(),
            bodies: self.bodies.len(),
            known: self.known.len(),
            inbox: self.inbox.len(),
            store: self.store.len(),
        }
    }
}

/// "Open checks role (0 called, 1 caller), sizes and known BIDs first, then
/// records in order"; "partner 8 or more gets 1 with place 255, tested first". Gives the
/// session and the memory that it works on, or the refusal.
pub fn open(role: u8, partner: u8, lent: &Lent<'_>) -> Result<(Session, Memory), Reply> {
    let partner = usize::from(partner);
    if partner >= PARTNERS {
        return Err(Reply::BAD_BUFFERS);
    }
    let role = Role::read(role).ok_or(Reply::BAD_BUFFERS)?;
    let sizes = lent.sizes();
    if !are_valid(&sizes) {
        return Err(Reply::BAD_BUFFERS);
    }
    let known = read_known(lent.known).ok_or(Reply::BAD_BUFFERS)?;
    let stores = Stores {
        titles: lent.titles.to_vec(),
        names: lent.names.to_vec(),
        bodies: lent.bodies.to_vec(),
    };
    let table = read_table(lent.table, &stores)?;
    let inbox = lent.inbox.chunks(places::ENTRY).map(layout::read_message).collect();
    let store = lent.store.to_vec();
    Ok((start(role, partner, sizes), Memory { sizes, table, stores, known, inbox, store }))
}

/// "Sizes are bad exactly if a limit above is passed, a buffer of entries holds
/// no whole number of them, or session memory hasn't its fixed size; stores may
/// have any size."
fn are_valid(sizes: &Sizes) -> bool {
    let whole =
        |bytes: usize, entry: usize, limit: usize| bytes % entry == 0 && bytes / entry <= limit;
    sizes.session == places::SESSION
        && whole(sizes.table, places::RECORD, RECORDS_MAX)
        && whole(sizes.known, places::KNOWN, KNOWN_MAX)
        && whole(sizes.inbox, places::ENTRY, MESSAGES_MAX)
}

/// "one outside the BID rule below is a bad buffer"
fn read_known(known: &[u8]) -> Option<Vec<Vec<u8>>> {
    let bid = |entry: &[u8]| layout::read_known(entry).filter(|bid| is_bid(bid));
    known.chunks(places::KNOWN).map(bid).collect()
}

/// "place = first bad record, from 0"; "of two records with one BID the later is
/// bad".
fn read_table(bytes: &[u8], stores: &Stores) -> Result<Vec<Record>, Reply> {
    let mut table: Vec<Record> = Vec::new();
    for entry in bytes.chunks(places::RECORD) {
        let copy = |record: &Record| {
            table.iter().any(|earlier| same_bid(&earlier.envelope.bid, &record.envelope.bid))
        };
        let record = layout::read_record(entry)
            .filter(|record| record.is_valid(stores) && !copy(record))
            .ok_or(Reply::bad_memory(table.len() as u8))?;
        table.push(record);
    }
    Ok(table)
}

/// "Called: we send it, CR, `>`, CR, and await the caller's SID [...]. Caller: we
/// await the SID".
fn start(role: Role, partner: usize, sizes: Sizes) -> Session {
    let waiting = match role {
        Role::Called => [sid::OURS, b"\r>\r"].concat(),
        Role::Caller => Vec::new(),
    };
    Session {
        role,
        partner,
        sizes,
        phase: Phase::Sid,
        mode: Mode::Plain,
        level: Level::Zero,
        our_ff: false,
        after_cr: false,
        line: Vec::new(),
        waiting,
        given: 0,
        sent: Vec::new(),
        deferred: Vec::new(),
        before_refusal: None,
        kept: 0,
        used: 0,
        turns: 0,
        blocks: [0; 2],
        signs: Vec::new(),
        marks: Vec::new(),
    }
}
