//! The lent memory in types: records, stores, the inbox.

use crate::field::{is_at, is_bid, is_call, is_heading, is_packed_body, is_plain_body};
use crate::proposal::Proposal;
use crate::record::{self, Form, Kind};

/// "**Table**: 0 to 64 records."
pub const RECORDS_MAX: usize = 64;
/// "**Known BIDs**: up to 1,024"
pub const KNOWN_MAX: usize = 1_024;
/// "**Inbox**: up to 64 messages"
pub const MESSAGES_MAX: usize = 64;
/// "announced size 0 to 999,999"
pub const SIZE_MAX: u32 = 999_999;

/// "one state a partner, 0 to 7"
pub const PARTNERS: usize = 8;

/// "a state (0 waiting, 1 forwarded, 2 declined)"
#[derive(Clone, Copy, Debug, PartialEq, Eq)]
#[repr(u8)]
pub enum State {
    Waiting = 0,
    Forwarded = 1,
    Declined = 2,
}

/// "a start and a length" in a store.
#[derive(Clone, Copy, Debug, PartialEq, Eq)]
pub struct Span {
    pub start: usize,
    pub length: usize,
}

impl Span {
    /// The part of the store. DECISIONS 55: start plus length lies within it,
    /// also where the length is 0.
    pub fn of<'a>(&self, store: &'a [u8]) -> Option<&'a [u8]> {
        store.get(self.start..)?.get(..self.length)
    }
}

/// What a record, a proposal and a message in the inbox have in common: "form,
/// type, from, at, to, BID".
#[derive(Clone, Debug, PartialEq, Eq)]
pub struct Envelope {
    pub form: Form,
    pub kind: Kind,
    pub from: Vec<u8>,
    pub at: Vec<u8>,
    pub to: Vec<u8>,
    pub bid: Vec<u8>,
}

impl Envelope {
    fn is_valid(&self) -> bool {
        is_call(&self.from) && is_at(&self.at) && is_call(&self.to) && is_bid(&self.bid)
    }

    pub fn proposal(&self, size: u32) -> Proposal<'_> {
        let Envelope { form, kind, from, at, to, bid } = self;
        Proposal { form: *form, kind: *kind, from, at, to, bid, size }
    }
}

impl From<&Proposal<'_>> for Envelope {
    fn from(proposal: &Proposal<'_>) -> Envelope {
        Envelope {
            form: proposal.form,
            kind: proposal.kind,
            from: proposal.from.to_vec(),
            at: proposal.at.to_vec(),
            to: proposal.to.to_vec(),
            bid: proposal.bid.to_vec(),
        }
    }
}

/// "Title, name and body are a start and a length in three lent stores."
#[derive(Clone, Debug, Default, PartialEq, Eq)]
pub struct Stores {
    pub titles: Vec<u8>,
    pub names: Vec<u8>,
    pub bodies: Vec<u8>,
}

/// One record of the table.
#[derive(Clone, Debug, PartialEq, Eq)]
pub struct Record {
    /// "A record's state becomes one state a partner": its column of the table.
    pub states: [State; PARTNERS],
    pub envelope: Envelope,
    pub size: u32,
    pub title: Span,
    pub name: Span,
    pub body: Span,
}

impl Record {
    /// The rules of the paragraph "Fields:", for a record of the table.
    pub fn is_valid(&self, stores: &Stores) -> bool {
        let form = self.envelope.form;
        self.envelope.is_valid()
            && self.size <= SIZE_MAX
            && self.title.of(&stores.titles).map_or(false, |t| heading_is(t, form != Form::File))
            && self.name.of(&stores.names).map_or(false, |n| heading_is(n, form == Form::File))
            && self.body.of(&stores.bodies).map_or(false, |body| match form {
                Form::Plain => is_plain_body(body),
                Form::Message | Form::File => is_packed_body(body),
            })
    }

    /// The title or the file name, as the form has it.
    pub fn heading<'a>(&self, stores: &'a Stores) -> &'a [u8] {
        let span = match self.envelope.form {
            Form::File => self.name,
            Form::Plain | Form::Message => self.title,
        };
        let Stores { titles, names, .. } = stores;
        record::heading(self.envelope.form, titles, names, span.start, span.length)
            .expect("open saw that it lies in its store")
    }

    pub fn body<'a>(&self, stores: &'a Stores) -> &'a [u8] {
        self.body.of(&stores.bodies).expect("open saw that it lies in its store")
    }
}

/// "Forms 0 and 1 need a title, form 2 a name; the unused one may be empty, else
/// the same bytes and length hold."
fn heading_is(bytes: &[u8], needed: bool) -> bool {
    is_heading(bytes) || (!needed && bytes.is_empty())
}

/// A message of the inbox: "form, type, from, at, to, BID, title or name, and
/// body; bodies lie one after another in a lent store".
#[derive(Clone, Debug, PartialEq, Eq)]
pub struct Message {
    pub envelope: Envelope,
    pub heading: Vec<u8>,
    pub body: Span,
}

/// The sizes in bytes of the buffers that a call is lent.
#[derive(Clone, Copy, Debug, PartialEq, Eq)]
pub struct Sizes {
    pub session: usize,
    pub table: usize,
    pub titles: usize,
    pub names: usize,
    pub bodies: usize,
    pub known: usize,
    pub inbox: usize,
    pub store: usize,
}

/// All that is lent for a session, session memory apart.
#[derive(Clone, Debug, PartialEq, Eq)]
pub struct Memory {
    /// What the next call is lent.
    pub sizes: Sizes,
    pub table: Vec<Record>,
    pub stores: Stores,
    pub known: Vec<Vec<u8>>,
    /// One a place. Those past the session's count stand as open found them.
    pub inbox: Vec<Option<Message>>,
    /// The inbox store.
    pub store: Vec<u8>,
}

#[cfg(test)]
mod tests {
    use super::*;

    fn stores() -> Stores {
        Stores {
            titles: b"a title\x1Fx".to_vec(),
            names: b"name.bin".to_vec(),
            bodies: b"text\x1A".to_vec(),
        }
    }

    fn span(start: usize, length: usize) -> Span {
        Span { start, length }
    }

    fn record(form: Form) -> Record {
        Record {
            states: [State::Waiting; PARTNERS],
            envelope: Envelope {
                form,
                kind: Kind::Private,
                from: b"F6FBB".to_vec(),
                at: b"FRA".to_vec(),
                to: b"FBB".to_vec(),
                bid: b"22_456_F6FBB".to_vec(),
            },
            size: 4,
            title: span(0, 7),
            name: span(0, 8),
            body: span(0, 4),
        }
    }

    fn valid(form: Form, change: impl Fn(&mut Record)) -> bool {
        let mut record = record(form);
        change(&mut record);
        record.is_valid(&stores())
    }

    const FORMS: [Form; 3] = [Form::Plain, Form::Message, Form::File];

    #[test]
    fn fields_obey_their_rules() {
        for form in FORMS {
            assert!(valid(form, |_| {}));
            assert!(!valid(form, |r| r.envelope.from.clear()));
            assert!(!valid(form, |r| r.envelope.at.push(b'.')));
            assert!(!valid(form, |r| r.envelope.to.push(b' ')));
            assert!(!valid(form, |r| r.envelope.bid.push(b'1')));
            assert!(valid(form, |r| r.size = 999_999));
            assert!(!valid(form, |r| r.size = 1_000_000));
        }
    }

    #[test]
    fn forms_0_and_1_need_a_title_and_form_2_a_name() {
        let no_title = FORMS.map(|form| valid(form, |r| r.title = span(0, 0)));
        assert_eq!(no_title, [false, false, true]);
        let no_name = FORMS.map(|form| valid(form, |r| r.name = span(0, 0)));
        assert_eq!(no_name, [true, true, false]);
        // The unused one obeys the same rule where it isn't empty.
        assert_eq!(FORMS.map(|form| valid(form, |r| r.title = span(0, 8))), [false; 3]);
        assert_eq!(FORMS.map(|form| valid(form, |r| r.name = span(1, 8))), [false; 3]);
    }

    #[test]
    fn spans_lie_in_their_stores_also_where_they_are_empty() {
        assert!(valid(Form::Plain, |r| r.name = span(8, 0)));
        assert!(!valid(Form::Plain, |r| r.name = span(9, 0)));
        assert!(valid(Form::Plain, |r| r.body = span(5, 0)));
        assert!(!valid(Form::Plain, |r| r.body = span(6, 0)));
        assert!(!valid(Form::Plain, |r| r.body = span(usize::MAX, 4)));
    }

    #[test]
    fn only_a_plain_body_holds_no_end_mark() {
        let marked = FORMS.map(|form| valid(form, |r| r.body = span(0, 5)));
        assert_eq!(marked, [false, true, true]);
    }

    #[test]
    fn heading_is_chosen_by_the_form() {
        let stores = stores();
        let headings = FORMS.map(|form| record(form).heading(&stores).to_vec());
        assert_eq!(headings, [&b"a title"[..], b"a title", b"name.bin"]);
    }
}
