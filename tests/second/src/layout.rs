//! The lent buffers as bytes (docs/MEMORY.md): records, known BIDs and messages
//! written and read, so that both implementations run on the same bytes.
//!
//! "Entries are bytes of one fixed size, numbers are little end first, nothing
//! is padded. A field is one byte for its length, then its bytes, then bytes
//! that don't matter (zeros where the library writes them)."

use crate::field::{AT_MAX, BID_MAX, CALL_MAX, HEADING_MAX};
use crate::log::Sheet;
use crate::memory::{Envelope, Message, Record, Span, State, PARTNERS};
use crate::places;
use crate::record::{Form, Kind};
use crate::tally::Tally;
use std::ops::Range;

/// The front panel's numbers: waiting 1 byte, the sum of their sizes 4, then proposed,
/// forwarded, declined, deferred and not settled, 1 byte each.
pub const SESSION_TALLY: Range<usize> = places::TALLY_WAITING..places::NUMBERS_END;
/// "Bytes 129 to 159 and 920 to 1,023 are free: no call reads or writes them".
pub const SESSION_FREE: [Range<usize>; 2] =
    [places::NUMBERS_END..places::ARRAYS, places::ARRAYS_END..places::SESSION];

/// The front panel's numbers in session memory.
pub fn read_tally(session: &[u8]) -> Tally {
    let mut numbers = In(&session[SESSION_TALLY]);
    let mut number = |bytes| numbers.number(bytes).expect("session memory has them");
    Tally {
        waiting: number(1),
        sizes: number(4),
        sheet: Sheet {
            proposed: number(1),
            forwarded: number(1),
            declined: number(1),
            deferred: number(1),
            unsettled: number(1),
        },
    }
}

/// An entry being written.
#[derive(Default)]
struct Out(Vec<u8>);

impl Out {
    /// A number of so many bytes.
    fn number(&mut self, value: usize, bytes: usize) {
        self.0.extend_from_slice(&value.to_le_bytes()[..bytes]);
    }

    /// A field of at most so many bytes.
    fn field(&mut self, field: &[u8], limit: usize) {
        let end = self.0.len() + 1 + limit;
        self.number(field.len(), 1);
        self.0.extend_from_slice(&field[..field.len().min(limit)]);
        self.0.resize(end, 0);
    }

    /// Form and type, then from, at, to and BID.
    fn envelope(&mut self, envelope: &Envelope) {
        self.0.push(envelope.form as u8);
        self.0.push(envelope.kind.byte());
        self.field(&envelope.from, CALL_MAX);
        self.field(&envelope.at, AT_MAX);
        self.field(&envelope.to, CALL_MAX);
        self.field(&envelope.bid, BID_MAX);
    }

    /// A start of four bytes and a length of so many.
    fn span(&mut self, span: Span, bytes: usize) {
        self.number(span.start, 4);
        self.number(span.length, bytes);
    }
}

/// "A record of the table (96 bytes, `RECORD`)": eight states, then as a proposal, then
/// the texts. A field over its limit is cut, but not
/// its length, so that it is bad in bytes too.
pub fn write_record(record: &Record) -> Vec<u8> {
    let mut out = Out(record.states.iter().map(|state| *state as u8).collect());
    out.envelope(&record.envelope);
    out.number(record.size as usize, 4);
    out.span(record.title, 1);
    out.span(record.name, 1);
    out.span(record.body, 2);
    out.0
}

/// "A known BID (13 bytes, `KNOWN`): its length (1 to 12), then its bytes."
pub fn write_known(bid: &[u8]) -> Vec<u8> {
    let mut out = Out::default();
    out.field(bid, BID_MAX);
    out.0
}

/// "A message of the inbox (155 bytes, `ENTRY`)".
pub fn write_message(message: &Message) -> Vec<u8> {
    let mut out = Out::default();
    out.envelope(&message.envelope);
    out.field(&message.heading, HEADING_MAX);
    out.span(message.body, 2);
    out.0
}

/// An entry being read. `None` where its bytes stand for nothing.
struct In<'a>(&'a [u8]);

impl<'a> In<'a> {
    fn bytes(&mut self, count: usize) -> Option<&'a [u8]> {
        let bytes = self.0.get(..count)?;
        self.0 = &self.0[count..];
        Some(bytes)
    }

    fn number(&mut self, bytes: usize) -> Option<usize> {
        let bytes = self.bytes(bytes)?;
        Some(bytes.iter().rev().fold(0, |value, &byte| value << 8 | usize::from(byte)))
    }

    fn field(&mut self, limit: usize) -> Option<Vec<u8>> {
        let length = self.number(1)?;
        let bytes = self.bytes(limit)?;
        Some(bytes.get(..length)?.to_vec())
    }

    fn envelope(&mut self) -> Option<Envelope> {
        Some(Envelope {
            form: form(self.number(1)?)?,
            kind: kind(self.number(1)?)?,
            from: self.field(CALL_MAX)?,
            at: self.field(AT_MAX)?,
            to: self.field(CALL_MAX)?,
            bid: self.field(BID_MAX)?,
        })
    }

    fn span(&mut self, bytes: usize) -> Option<Span> {
        Some(Span { start: self.number(4)?, length: self.number(bytes)? })
    }
}

/// A record's state, by its number.
pub fn state(number: usize) -> Option<State> {
    const ALL: [State; 3] = [State::Waiting, State::Forwarded, State::Declined];
    ALL.into_iter().find(|state| *state as usize == number)
}

/// One a partner, partner 0 first.
fn states(bytes: &[u8]) -> Option<[State; PARTNERS]> {
    let states: Option<Vec<State>> = bytes.iter().map(|&byte| state(byte.into())).collect();
    states?.try_into().ok()
}

fn form(number: usize) -> Option<Form> {
    const ALL: [Form; 3] = [Form::Plain, Form::Message, Form::File];
    ALL.into_iter().find(|form| *form as usize == number)
}

/// DECISIONS 54: in memory, types are the capitals P and B.
fn kind(number: usize) -> Option<Kind> {
    let byte = u8::try_from(number).ok()?;
    Kind::read(byte).filter(|kind| kind.byte() == byte)
}

/// A record, whether it obeys the rules of its fields or not.
pub fn read_record(entry: &[u8]) -> Option<Record> {
    let mut entry = In(entry);
    Some(Record {
        states: states(entry.bytes(PARTNERS)?)?,
        envelope: entry.envelope()?,
        size: entry.number(4)? as u32,
        title: entry.span(1)?,
        name: entry.span(1)?,
        body: entry.span(2)?,
    })
}

/// A known BID, whether it obeys the BID rule or not.
pub fn read_known(entry: &[u8]) -> Option<Vec<u8>> {
    In(entry).field(BID_MAX)
}

/// A message of the inbox.
pub fn read_message(entry: &[u8]) -> Option<Message> {
    let mut entry = In(entry);
    Some(Message {
        envelope: entry.envelope()?,
        heading: entry.field(HEADING_MAX)?,
        body: entry.span(2)?,
    })
}

#[cfg(test)]
mod tests {
    use super::*;

    fn envelope() -> Envelope {
        Envelope {
            form: Form::File,
            kind: Kind::Bulletin,
            from: b"F6FBB".to_vec(),
            at: b"FC1GHV.FFPC.FRA.EU".to_vec(),
            to: b"FC1MVP".to_vec(),
            bid: b"24657_F6FBB".to_vec(),
        }
    }

    fn record() -> Record {
        Record {
            states: [
                State::Declined,
                State::Waiting,
                State::Forwarded,
                State::Waiting,
                State::Waiting,
                State::Declined,
                State::Waiting,
                State::Forwarded,
            ],
            envelope: envelope(),
            size: 0x0003_0201,
            title: Span { start: 0x1413_1211, length: 0x15 },
            name: Span { start: 0x2423_2221, length: 0x25 },
            body: Span { start: 0x3433_3231, length: 0x3635 },
        }
    }

    #[test]
    fn a_record_has_the_offsets_of_the_table() {
        let entry = write_record(&record());
        assert_eq!(entry.len(), places::RECORD);
        assert_eq!(entry[..places::STATES], [2, 0, 1, 0, 0, 2, 0, 1]);
        assert_eq!(entry[places::RECORD_FORM], Form::File as u8);
        assert_eq!(entry[places::RECORD_TYPE], b'B');
        assert_eq!(entry[places::RECORD_FROM..places::RECORD_AT], *b"\x05F6FBB\0");
        let (at, rest) = entry[places::RECORD_AT..places::RECORD_TO].split_at(19);
        assert_eq!(at, *b"\x12FC1GHV.FFPC.FRA.EU");
        assert_eq!(rest, [0; 20]);
        assert_eq!(entry[places::RECORD_TO..places::RECORD_BID], *b"\x06FC1MVP");
        assert_eq!(entry[places::RECORD_BID..places::RECORD_SIZE_FIELD], *b"\x0B24657_F6FBB\0");
        assert_eq!(entry[places::RECORD_SIZE_FIELD..places::RECORD_TITLE], [1, 2, 3, 0]);
        assert_eq!(
            entry[places::RECORD_TITLE..places::RECORD_NAME],
            [0x11, 0x12, 0x13, 0x14, 0x15]
        );
        assert_eq!(entry[places::RECORD_TITLE_LEN], 0x15);
        assert_eq!(entry[places::RECORD_NAME..places::RECORD_BODY], [0x21, 0x22, 0x23, 0x24, 0x25]);
        assert_eq!(entry[places::RECORD_NAME_LEN], 0x25);
        assert_eq!(entry[places::RECORD_BODY..], [0x31, 0x32, 0x33, 0x34, 0x35, 0x36]);
        assert_eq!(entry[places::RECORD_BODY_LEN..], [0x35, 0x36]);
        assert_eq!(read_record(&entry), Some(record()));
    }

    #[test]
    fn a_message_has_the_offsets_of_the_table() {
        let message = Message {
            envelope: envelope(),
            heading: b"r\xE9sum\xE9".to_vec(),
            body: Span { start: 0x0403_0201, length: 0x0605 },
        };
        let entry = write_message(&message);
        assert_eq!(entry.len(), places::ENTRY);
        assert_eq!(entry[places::FORM], Form::File as u8);
        assert_eq!(entry[places::TYPE], b'B');
        assert_eq!(entry[places::FROM..places::AT], *b"\x05F6FBB\0");
        assert_eq!(entry[places::AT..][..2], *b"\x12F");
        assert_eq!(entry[places::TO..places::BID], *b"\x06FC1MVP");
        assert_eq!(entry[places::BID..places::FIELDS], *b"\x0B24657_F6FBB\0");
        assert_eq!(entry[places::ENTRY_HEADING..][..8], *b"\x06r\xE9sum\xE9\0");
        assert_eq!(entry[places::ENTRY_BODY..], [1, 2, 3, 4, 5, 6]);
        assert_eq!(entry[places::ENTRY_BODY_LEN..], [5, 6]);
        assert_eq!(read_message(&entry), Some(message));
    }

    #[test]
    fn a_known_bid_is_its_length_and_its_bytes() {
        assert_eq!(write_known(b"1_A"), *b"\x031_A\0\0\0\0\0\0\0\0\0");
        assert_eq!(read_known(&write_known(b"1_A")), Some(b"1_A".to_vec()));
        assert_eq!(read_known(&[13; places::KNOWN]), None);
    }

    #[test]
    fn bytes_past_a_field_do_not_matter() {
        let mut entry = write_record(&record());
        // The last bytes of the rooms of from, at and the BID.
        entry[places::RECORD_AT - 1] = 0xFF;
        entry[places::RECORD_TO - 1] = 0x20;
        entry[places::RECORD_SIZE_FIELD - 1] = 0x07;
        assert_eq!(read_record(&entry), Some(record()));
    }

    #[test]
    fn bytes_that_stand_for_nothing_are_no_record() {
        for (place, bad) in [
            (0, 3),
            (5, 3),
            (PARTNERS - 1, 255),
            (places::RECORD_FORM, 3),
            (places::RECORD_TYPE, b'p'),
            (places::RECORD_TYPE, b'T'),
            (places::RECORD_FROM, 7),
            (places::RECORD_AT, 39),
            (places::RECORD_BID, 13),
        ] {
            let mut entry = write_record(&record());
            entry[place] = bad;
            assert_eq!(read_record(&entry), None);
        }
    }

    #[test]
    fn a_field_over_its_limit_is_bad_in_bytes_too() {
        let mut long = record();
        long.envelope.bid = b"1234567890123".to_vec();
        let entry = write_record(&long);
        assert_eq!(entry.len(), places::RECORD);
        assert_eq!(read_record(&entry), None);
    }
}
