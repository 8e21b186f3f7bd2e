//! The form test of docs/MEMORY.md, item by item. What waits is written by the
//! second implementation's writers, so its length is found apart from the library.

use crate::lent::{Memory, BODIES, INBOX, NAMES, SESSION, STORE, TABLE, TITLES};
use second::field::{AT_MAX, BID_MAX, BODY_MAX, CALL_MAX, HEADING_MAX};
use second::line::LINE_LIMIT;
use second::memory::{Span, State, MESSAGES_MAX, PARTNERS};
use second::phase;
use second::places;
use second::proposal::{write_fields, BLOCK_LIMIT};
use second::record::Form;
use second::refusal;
use second::sid;
use second::transfer::writer::{write_framed, write_plain};

/// Items of the form test.
pub const ITEM_COUNT: usize = 7;

/// A number of so many bytes, little end first.
fn number(bytes: &[u8], at: usize, length: usize) -> u64 {
    bytes[at..at + length].iter().rev().fold(0, |value, &byte| value << 8 | u64::from(byte))
}

/// The first item of the page that memory of the sizes that it has fails, 1 to 7:
/// receive and give must answer 1. `None`: they must not.
pub fn failed(memory: &Memory) -> Option<usize> {
    const ITEMS: [fn(&Memory) -> bool; ITEM_COUNT] = [
        is_marked,
        sizes_are_kept,
        counts_fit,
        messages_fit,
        awaited_fits,
        waiting_fits,
        reason_fits,
    ];
    ITEMS.iter().position(|item| !item(memory)).map(|place| place + 1)
}

/// "1. session memory has 1,024 bytes and begins with the mark".
fn is_marked(memory: &Memory) -> bool {
    let session = memory.part(SESSION);
    session.len() == places::SESSION && session[places::MARK..].starts_with(b"FM01")
}

/// "2. each of the seven lent sizes is the one that open kept".
fn sizes_are_kept(memory: &Memory) -> bool {
    const SIZES: [usize; 7] = [
        places::SIZE_TABLE,
        places::SIZE_TITLES,
        places::SIZE_NAMES,
        places::SIZE_BODIES,
        places::SIZE_KNOWN,
        places::SIZE_INBOX,
        places::SIZE_STORE,
    ];
    let kept = |at: usize| number(memory.part(SESSION), at, 8);
    (TABLE..).zip(SIZES).all(|(buffer, at)| kept(at) == memory.part(buffer).len() as u64)
}

/// "3. counts fit their arrays: line 256, places and signs 5 each, proposals 5,
/// heading 80", and the partner is below 8.
fn counts_fit(memory: &Memory) -> bool {
    let session = memory.part(SESSION);
    let fits = |at: &usize| usize::from(session[*at]) <= BLOCK_LIMIT;
    number(session, places::LINE_LENGTH, 2) <= LINE_LIMIT as u64
        && [places::PROPOSALS, places::OURS, places::SENDING, places::SIGNS].iter().all(fits)
        && usize::from(session[places::HEAD]) <= HEADING_MAX
        && partner(memory) < PARTNERS
}

/// Whose column the session reads and writes.
pub fn partner(memory: &Memory) -> usize {
    memory.part(SESSION)[places::PARTNER].into()
}

/// How many records wait for the partner that session memory names, and the sum of their
/// sizes modulo 2^32, on a table that nobody judged.
pub fn waits(memory: &Memory) -> (usize, usize) {
    let table = memory.part(TABLE).chunks_exact(places::RECORD);
    let waits = table.filter(|entry| entry[partner(memory)] == State::Waiting as u8);
    let sizes: u64 = waits.clone().map(|entry| number(entry, places::RECORD_SIZE_FIELD, 4)).sum();
    (waits.count(), (sizes % (1 << 32)) as usize)
}

/// "4. the inbox has at most 64 places, the messages kept have theirs, their
/// lengths sum to the store bytes that the session counts, and these lie in the
/// store".
fn messages_fit(memory: &Memory) -> bool {
    let session = memory.part(SESSION);
    let kept = usize::from(session[places::KEPT]);
    let entries: Vec<&[u8]> = memory.part(INBOX).chunks_exact(places::ENTRY).collect();
    let used = number(session, places::USED, 8);
    entries.len() <= MESSAGES_MAX
        && kept <= entries.len()
        && entries[..kept].iter().map(|entry| number(entry, places::ENTRY_BODY_LEN, 2)).sum::<u64>()
            == used
        && used <= memory.part(STORE).len() as u64
}

/// "5. records are being sent only where the partner's turn or nothing is awaited;
/// where a transfer is awaited, [...]".
fn awaited_fits(memory: &Memory) -> bool {
    let session = memory.part(SESSION);
    match session[places::PHASE] {
        phase::TURN => true,
        phase::TRANSFER => session[places::SENDING] == 0 && transfer_fits(memory),
        phase::CALLED_SID..=phase::FS => session[places::SENDING] == 0,
        _ => true,
    }
}

/// "there are as many signs as proposals, it is that of an accepted one (`+`), it and
/// the accepted ones after it have places, and its body so far has room (65,535
/// bytes at most)".
fn transfer_fits(memory: &Memory) -> bool {
    let session = memory.part(SESSION);
    let (signs, under_way) = (five(session, places::SIGNS), usize::from(session[places::CURRENT]));
    let places = memory.part(INBOX).len() / places::ENTRY;
    signs.len() == usize::from(session[places::PROPOSALS])
        && signs.get(under_way) == Some(&b'+')
        && usize::from(session[places::KEPT]) + pluses(&signs[under_way..]) <= places
        && number(session, places::BODY, 4) <= room(memory) as u64
}

/// How long the body under way may be.
pub fn room(memory: &Memory) -> usize {
    let used = number(memory.part(SESSION), places::USED, 8) as usize;
    memory.part(STORE).len().saturating_sub(used).min(BODY_MAX)
}

fn pluses(signs: &[u8]) -> usize {
    signs.iter().filter(|&&sign| sign == b'+').count()
}

/// "6. where something waits (at 64 or 65), the bytes given (at 100) are fewer than all
/// of it."
fn waiting_fits(memory: &Memory) -> bool {
    let session = memory.part(SESSION);
    session[places::FIRST..=places::THEN] == [phase::PIECE_NONE; 2]
        || number(session, places::POS, 8) < waiting(memory).len() as u64
}

/// "7. a session that is over (7 and more at 60) has nothing waiting, or one of the two
/// lines that say why, alone."
fn reason_fits(memory: &Memory) -> bool {
    let session = memory.part(SESSION);
    let reasons = [phase::PIECE_NONE, phase::PIECE_PROTOCOL_ERROR, phase::PIECE_CHECKSUM_ERROR];
    session[places::PHASE] < phase::OVER
        || (session[places::THEN] == phase::PIECE_NONE && reasons.contains(&session[places::FIRST]))
}

/// What give must hand over on memory that passes the test, where the session is over.
pub fn parting(memory: &Memory) -> Option<Vec<u8>> {
    let session = memory.part(SESSION);
    let given = number(session, places::POS, 8) as usize;
    let waits = || waiting(memory).get(given..).unwrap_or_default().to_vec();
    (session[places::PHASE] >= phase::OVER && failed(memory).is_none()).then(waits)
}

/// "1 + 5" bytes: how many, and then these.
fn five(session: &[u8], at: usize) -> &[u8] {
    &session[at + 1..][..usize::from(session[at])]
}

/// All that waits, given bytes included: "what waits first" and "what waits
/// then".
pub fn waiting(memory: &Memory) -> Vec<u8> {
    let session = memory.part(SESSION);
    let first = match session[places::FIRST] {
        phase::PIECE_NONE => Vec::new(),
        phase::PIECE_SID_AND_PROMPT => [sid::OURS, b"\r>\r"].concat(),
        phase::PIECE_SID => [sid::OURS, b"\r"].concat(),
        phase::PIECE_PROTOCOL_ERROR => refusal::PROTOCOL_ERROR.to_vec(),
        phase::PIECE_CHECKSUM_ERROR => refusal::CHECKSUM_ERROR.to_vec(),
        _ => [b"FS ", five(session, places::SIGNS), b"\r"].concat(),
    };
    let then = match session[places::THEN] {
        phase::PIECE_NONE => Vec::new(),
        phase::PIECE_FF => b"FF\r".to_vec(),
        phase::PIECE_FQ => b"FQ\r".to_vec(),
        phase::PIECE_BLOCK => {
            [each(memory, places::OURS, Entry::proposal), b"F>\r".to_vec()].concat()
        }
        _ => each(memory, places::SENDING, Entry::transfer),
    };
    [first, then].concat()
}

/// What is written for the records at these places of the table, in order.
fn each<'a>(memory: &'a Memory, at: usize, write: fn(&Entry<'a>) -> Vec<u8>) -> Vec<u8> {
    let written = |&place: &u8| write(&Entry::at(memory, place.into()));
    five(memory.part(SESSION), at).iter().flat_map(written).collect()
}

/// A record of the table as the page says that bytes nobody judged are read: "a
/// place past the table is a record of zeros, a field longer than its room has its
/// room's length, a form over 2 is plain text, a part that doesn't lie in its
/// store is empty".
struct Entry<'a> {
    memory: &'a Memory,
    bytes: [u8; places::RECORD],
}

impl<'a> Entry<'a> {
    fn at(memory: &'a Memory, place: usize) -> Entry<'a> {
        let table = memory.part(TABLE).chunks_exact(places::RECORD);
        let bytes = table.into_iter().nth(place).map(|entry| entry.try_into().expect("a record"));
        Entry { memory, bytes: bytes.unwrap_or([0; places::RECORD]) }
    }

    fn form(&self) -> Form {
        let form = self.bytes[places::RECORD_FORM];
        let packed = [Form::Message, Form::File].into_iter().find(|packed| *packed as u8 == form);
        packed.unwrap_or(Form::Plain)
    }

    fn field(&self, at: usize, room: usize) -> &[u8] {
        &self.bytes[at + 1..][..room.min(self.bytes[at].into())]
    }

    fn number(&self, at: usize, length: usize) -> usize {
        number(&self.bytes, at, length) as usize
    }

    /// The part of a store that starts as the one place of the record says, and is as long
    /// as so many bytes at the other do.
    fn part(&self, store: usize, start: usize, (length, bytes): (usize, usize)) -> &[u8] {
        let span = Span { start: self.number(start, 4), length: self.number(length, bytes) };
        span.of(self.memory.part(store)).unwrap_or_default()
    }

    fn title(&self) -> &[u8] {
        self.part(TITLES, places::RECORD_TITLE, (places::RECORD_TITLE_LEN, 1))
    }

    fn name(&self) -> &[u8] {
        self.part(NAMES, places::RECORD_NAME, (places::RECORD_NAME_LEN, 1))
    }

    fn body(&self) -> &[u8] {
        self.part(BODIES, places::RECORD_BODY, (places::RECORD_BODY_LEN, 2))
    }

    fn proposal(&self) -> Vec<u8> {
        let from = self.field(places::RECORD_FROM, CALL_MAX);
        let at = self.field(places::RECORD_AT, AT_MAX);
        let to = self.field(places::RECORD_TO, CALL_MAX);
        let bid = self.field(places::RECORD_BID, BID_MAX);
        let size = self.number(places::RECORD_SIZE_FIELD, 4) as u32;
        write_fields(self.form(), self.bytes[places::RECORD_TYPE], [from, at, to, bid], size)
    }

    fn transfer(&self) -> Vec<u8> {
        match self.form() {
            Form::Plain => write_plain(self.title(), self.body()),
            Form::Message => write_framed(self.title(), self.body()),
            Form::File => write_framed(self.name(), self.body()),
        }
    }
}
