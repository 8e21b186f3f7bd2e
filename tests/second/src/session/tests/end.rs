//! One end of a session under test.

use crate::host::{Buffers, Letter};
use crate::log::{self, Kept, Trace, With};
use crate::memory::{Memory, Record, State};
use crate::places;
use crate::refusal;
use crate::session::{open, Reply, Session};
pub use crate::session::{CALLED, CALLER};
use crate::sid::Mode;
use crate::tally::{Tally, Told};

/// Whom the sessions of these tests are with.
pub const PARTNER: u8 = 5;

/// Where the table has this partner's state of a record.
pub fn state_at(record: usize, partner: u8) -> usize {
    places::RECORD * record + usize::from(partner)
}

/// Our end, its memory, and all that went over the link.
#[derive(Clone)]
pub struct End {
    pub session: Session,
    pub memory: Memory,
    role: u8,
    opened: Vec<Record>,
    trace: Trace,
    told: Told,
}

impl End {
    pub fn open(role: u8, buffers: &Buffers) -> End {
        End::with(PARTNER, role, buffers)
    }

    pub fn with(partner: u8, role: u8, buffers: &Buffers) -> End {
        let (session, memory) = open(role, partner, &buffers.lent()).expect("an accepted open");
        let opened = memory.table.clone();
        End { session, memory, role, opened, trace: Trace::new(), told: Told::default() }
    }

    /// A called end that has heard a partner without B and awaits its turn.
    pub fn called(buffers: &Buffers) -> End {
        let mut end = End::open(CALLED, buffers);
        assert_eq!(end.say(), b"[NOD-1-B1FH$]\r>\r");
        assert_eq!(end.hear(b"[TST-1-F$]\r"), Reply::ok(11));
        end
    }

    /// The same with a partner that has B.
    pub fn called_framed(buffers: &Buffers) -> End {
        let mut end = End::open(CALLED, buffers);
        end.say();
        assert_eq!(end.hear(b"[TST-1-BF$]\r"), Reply::ok(12));
        end
    }

    /// A calling end that has heard SID and prompt of a partner without B.
    pub fn caller(buffers: &Buffers) -> End {
        let mut end = End::open(CALLER, buffers);
        assert_eq!(end.hear(b"[TST-1-F$]\r>\r"), Reply::ok(13));
        end
    }

    /// Receives a portion.
    pub fn hear(&mut self, bytes: &[u8]) -> Reply {
        let reply = self.session.receive(&mut self.memory, bytes);
        self.trace.consumed(&bytes[..reply.count]);
        self.told.received(bytes, reply);
        self.check_log();
        reply
    }

    /// Receives a portion that must be taken whole and without refusal.
    pub fn hears(&mut self, bytes: &[u8]) {
        assert_eq!(self.hear(bytes), Reply::ok(bytes.len()), "{}", bytes.escape_ascii());
    }

    /// Receives a portion that must be taken whole, refused at its last byte; then
    /// gives the line that says why, if one is due, whatever arrives, and no more.
    pub fn refuses(&mut self, bytes: &[u8], answer: u8) {
        let refused = Reply { answer, place: 0, count: bytes.len() };
        assert_eq!(self.hear(bytes), refused, "{}", bytes.escape_ascii());
        self.is_deaf();
        let reason = reason(answer);
        let (first, rest) = reason.split_at(reason.len() / 2);
        assert_eq!(self.say_up_to(first.len()), first);
        self.is_deaf();
        self.says(rest);
        self.is_deaf();
        self.says(b"");
    }

    /// "Bytes arriving meanwhile get 12": "nothing consumed, nothing changed".
    pub fn is_deaf(&mut self) {
        let (memory, waiting) = (self.memory.clone(), self.session.waiting());
        for bytes in [&b""[..], b"\n", b"FF\r", b"*** Protocol error\r"] {
            assert_eq!(
                self.hear(bytes),
                Reply { answer: refusal::SESSION_ENDED, place: 0, count: 0 }
            );
        }
        assert_eq!((&self.memory, self.session.waiting()), (&memory, waiting));
    }

    /// Gives into a room of so many bytes.
    pub fn say_up_to(&mut self, room: usize) -> Vec<u8> {
        let mut buffer = vec![0; room];
        let reply = self.session.give(&self.memory, &mut buffer, 0);
        assert_eq!((reply.answer, reply.place), (0, 0));
        buffer.truncate(reply.count);
        self.trace.given(&buffer);
        self.told.given(&self.session, &buffer);
        self.check_log();
        buffer
    }

    /// Gives all that waits.
    pub fn say(&mut self) -> Vec<u8> {
        self.say_up_to(400_000)
    }

    /// Gives all that waits, which must be this.
    pub fn says(&mut self, bytes: &[u8]) {
        let said = self.say();
        assert_eq!(said, bytes, "{}", said.escape_ascii());
    }

    pub fn states(&self) -> Vec<State> {
        self.column(self.session.partner())
    }

    /// The states of a partner, whoever the session is with.
    pub fn column(&self, partner: usize) -> Vec<State> {
        self.memory.table.iter().map(|record| record.states[partner]).collect()
    }

    /// The inbox up to its count.
    pub fn kept(&self) -> Vec<Kept> {
        let messages = self.memory.inbox[..self.session.kept()].iter().flatten();
        messages
            .map(|message| Kept {
                envelope: message.envelope.clone(),
                heading: message.heading.clone(),
                body: message.body.of(&self.memory.store).expect("in the store").to_vec(),
            })
            .collect()
    }

    /// What the front panel shows.
    pub fn tally(&self) -> Tally {
        let Memory { table, stores, .. } = &self.memory;
        self.told.tally(self.with_whom(), &self.session, (&self.opened, table), stores)
    }

    fn with_whom(&self) -> With {
        With { we_called: self.role == CALLER, partner: self.session.partner() }
    }

    /// Demand 3: "after the list, the table is as open found it but with the
    /// log's states, and the inbox up to its count is the log's messages kept".
    fn check_log(&self) {
        let stores = &self.memory.stores;
        let with = self.with_whom();
        let partner = with.partner;
        let log = log::read(with, &self.opened, stores, &self.trace);
        let mut table = self.opened.clone();
        table.iter_mut().zip(&log.states).for_each(|(r, &state)| r.states[partner] = state);
        assert_eq!(self.memory.table, table);
        assert_eq!(self.kept(), log.kept);
        self.check_tally();
    }

    /// "the first is always the sum of the other four"; what is forwarded and declined can be
    /// counted in the table too.
    fn check_tally(&self) {
        let sheet = self.tally().sheet;
        assert!(sheet.adds_up(), "{sheet:?}");
        let states = self.opened.iter().zip(self.states());
        let became = |state| {
            let marked = |(record, now): &(&Record, State)| {
                record.states[self.session.partner()] == State::Waiting && *now == state
            };
            states.clone().filter(marked).count()
        };
        assert_eq!(sheet.forwarded, became(State::Forwarded));
        assert_eq!(sheet.declined, became(State::Declined));
        assert_eq!(sheet.deferred, self.session.deferred());
    }
}

/// Request Q-1's line after an answer of receive.
fn reason(answer: u8) -> &'static [u8] {
    match answer {
        refusal::BAD_CHECKSUM => b"*** Checksum error\r",
        refusal::NONE | refusal::BAD_MEMORY | refusal::BYTES_WAIT | refusal::SESSION_ENDED => b"",
        _ => b"*** Protocol error\r",
    }
}

/// A table of plain messages with these announced sizes and bodies of a few
/// bytes, BIDs `1_US` on; room for eight messages of 1,000 bytes.
pub fn plain_table(sizes: &[u32]) -> Buffers {
    table(Mode::Plain, sizes)
}

/// The same with packed messages.
pub fn packed_table(sizes: &[u32]) -> Buffers {
    table(Mode::Framed, sizes)
}

fn table(mode: Mode, sizes: &[u32]) -> Buffers {
    let mut buffers = Buffers::new(8, 1000);
    let letter = if mode == Mode::Plain { "FB" } else { "FA" };
    for (place, size) in (1..).zip(sizes) {
        let line = format!("{letter} P US THEM YOU {place}_US {size}");
        let title = format!("T{place}");
        buffers.add(&Letter::new(mode, line.as_bytes(), title.as_bytes(), b"text\r"));
    }
    buffers
}

/// What we write to propose the records of `plain_table` at these places.
pub fn proposals(places: &[(usize, u32)]) -> Vec<u8> {
    let line = |(place, size)| format!("FB P US THEM YOU {place}_US {size}\r");
    let lines: String = places.iter().copied().map(line).collect();
    [lines.as_bytes(), b"F>\r"].concat()
}

/// The plain transfers of the records at these places.
pub fn transfers(places: &[usize]) -> Vec<u8> {
    let transfer = |place| format!("T{place}\rtext\r\x1A\r");
    places.iter().map(transfer).collect::<String>().into_bytes()
}
