//! Both implementations side by side on the same bytes, compared after every
//! call.

use crate::guarded::Guarded;
use crate::lent::{Memory, Resize, INBOX, SESSION, STORE, TABLE};
use crate::library;
use crate::report::{Call, Checked, History};
use inputs::random::Random;
use second::host::Buffers;
use second::layout::{read_message, read_tally, write_message};
use second::log::{self, Kept, Trace, With};
use second::memory::{self, Record};
use second::places;
use second::refusal;
use second::session::{self, Reply, Session, CALLER};
use second::sid::Level;
use second::tally::{Tally, Told};

/// The second implementation after an accepted open.
#[derive(Clone, Debug)]
pub struct Second {
    pub session: Session,
    pub memory: memory::Memory,
    with: With,
    /// The table as open found it, in records and in bytes.
    opened: Vec<Record>,
    opened_bytes: Vec<u8>,
    trace: Trace,
    /// What the front panel shows, and what that is read from.
    pub tally: Tally,
    told: Told,
    /// Messages that stand in the expected bytes already.
    written: usize,
}

/// The library, what should stand in its buffers, and the calls made so far.
#[derive(Clone, Debug)]
pub struct Pair {
    lent: Memory,
    /// What the second implementation says. Session memory: as the library's
    /// last call left it.
    expected: Memory,
    second: Option<Second>,
    /// Calls before the last accepted open.
    before: usize,
    /// The number that somebody has put in the place of level 1.
    relevelled: Option<u8>,
    history: History,
}

impl Pair {
    pub fn new(random: &mut Random, host: &Buffers) -> Pair {
        let lent = Memory::new(random, host);
        Pair {
            expected: lent.clone(),
            lent,
            second: None,
            before: 0,
            relevelled: None,
            history: History::default(),
        }
    }

    /// The second implementation's session, if open accepted one.
    pub fn second(&self) -> Option<&Second> {
        self.second.as_ref()
    }

    /// The buffers, as open is lent them.
    pub fn lent(&self) -> session::Lent<'_> {
        self.lent.second()
    }

    /// Calls of this session so far.
    pub fn calls(&self) -> usize {
        self.history.count() - self.before
    }

    /// The library's buffers, for runs on changed memory.
    pub fn into_lent(self) -> (Memory, History) {
        (self.lent, self.history)
    }

    /// Opens. "A refused open changes no lent byte", so DECISIONS 52: a live
    /// session goes on.
    pub fn open(&mut self, role: u8, partner: u8) -> Checked<Reply> {
        self.history.begin(Call::Open { role, partner });
        let reply = library::open(role, partner, self.lent.lend(None));
        let expected = match session::open(role, partner, &self.expected.second()) {
            Err(refused) => refused,
            Ok((session, memory)) => {
                self.relevelled = None;
                self.before = self.history.count();
                let mut second = Second {
                    with: With { we_called: role == CALLER, partner: session.partner() },
                    opened: memory.table.clone(),
                    opened_bytes: self.expected.part(TABLE).to_vec(),
                    trace: Trace::new(),
                    tally: Tally::default(),
                    told: Told::default(),
                    written: 0,
                    session,
                    memory,
                };
                second.tally = second.counted();
                self.second = Some(second);
                Reply::ok(0)
            }
        };
        self.compare(reply, expected, expected.answer != refusal::NONE)?;
        Ok(reply)
    }

    /// Puts another number for level 1 into session memory: any but 0 counts as 1.
    pub fn relevel(&mut self, number: u8) {
        let level = self.second.as_ref().map(|second| second.session.level());
        if level != Some(Level::One) || number == 0 {
            return;
        }
        let (buffer, place) = (SESSION, places::LEVEL);
        self.history.begin(Call::Change { buffer, place, bytes: vec![number] });
        self.lent.part_mut(SESSION)[places::LEVEL] = number;
        self.expected.part_mut(SESSION)[places::LEVEL] = number;
        self.relevelled = Some(number);
    }

    /// Receives a portion, on buffers of another size if `resize` says so.
    pub fn receive(&mut self, bytes: &[u8], resize: Option<Resize>) -> Checked<Reply> {
        self.history.begin(Call::Receive { bytes: bytes.to_vec(), resize });
        let reply = library::receive(self.lent.lend(resize), bytes);
        let expected = match &mut self.second {
            // DECISIONS 32: "Memory that open never accepted: 1"
            None => Reply::BAD_BUFFERS,
            Some(second) => {
                let reply = second.call(resize, |session, memory| session.receive(memory, bytes));
                second.told.received(bytes, reply);
                second.tally = second.counted();
                reply
            }
        };
        self.update();
        // "nothing consumed, nothing changed"; "Receiving no bytes on a live
        // session answers 0 and changes nothing."
        let stands = matches!(expected.answer, refusal::BAD_MEMORY | refusal::SESSION_ENDED)
            || bytes.is_empty();
        self.compare(reply, expected, stands)?;
        if let Some(second) = &mut self.second {
            second.trace.consumed(&bytes[..reply.count]);
        }
        Ok(reply)
    }

    /// Gives into a buffer of so many bytes, from a place.
    pub fn give(
        &mut self,
        random: &mut Random,
        (room, place): (usize, usize),
        resize: Option<Resize>,
    ) -> Checked<Reply> {
        self.history.begin(Call::Give { room, place, resize });
        let filling = vec![random.byte(); room];
        let mut buffer = Guarded::new(random, &filling);
        let mut expected_buffer = buffer.clone();
        let reply = library::give(self.lent.lend(resize), buffer.part_mut(), place);
        let part = expected_buffer.part_mut();
        let expected = match &mut self.second {
            None => Reply::BAD_BUFFERS,
            Some(second) => {
                second.call(resize, |session, memory| session.give(memory, part, place))
            }
        };
        // Answer 1 changes nothing; "a place beyond the end writes nothing and
        // reports 0"; "Give on an ended session writes nothing", once the line that
        // says why is taken.
        self.compare(
            reply,
            expected,
            expected.answer == refusal::BAD_MEMORY || expected.count == 0,
        )?;
        if let Some(at) = buffer.first_difference(&expected_buffer) {
            let (library, second) = (buffer.part(), expected_buffer.part());
            let said = |bytes: &[u8]| crate::report::escaped(bytes);
            let (library, second) = (said(library), said(second));
            return self.differs(format!(
                "give's buffer, byte {at} on\n  library:  \"{library}\"\n  expected: \"{second}\""
            ));
        }
        if let Some(second) = &mut self.second {
            let part = buffer.part().get(place..).unwrap_or_default();
            second.trace.given(&part[..reply.count]);
            second.told.given(&second.session, &part[..reply.count]);
        }
        Ok(reply)
    }

    /// Writes what the second implementation keeps into the expected bytes.
    fn update(&mut self) {
        let second = match &mut self.second {
            Some(second) => second,
            None => return,
        };
        let table = self.expected.part_mut(TABLE).chunks_mut(places::RECORD);
        for (entry, record) in table.zip(&second.memory.table) {
            // The other seven columns stand as open found them.
            entry[second.with.partner] = record.states[second.with.partner] as u8;
        }
        let inbox = self.expected.part_mut(INBOX).chunks_mut(places::ENTRY);
        let new = second.written..second.session.kept();
        for (entry, message) in inbox.zip(&second.memory.inbox).take(new.end).skip(new.start) {
            let message = message.as_ref().expect("a message up to the count");
            entry.copy_from_slice(&write_message(message));
        }
        second.written = new.end;
        self.expected.part_mut(STORE).copy_from_slice(&second.memory.store);
    }

    /// Holds the library's reply and buffers to the second implementation's.
    fn compare(&mut self, reply: Reply, expected: Reply, session_stands: bool) -> Checked {
        self.history.end(reply);
        if reply != expected {
            return self.differs(format!("reply\n  library:  {reply:?}\n  expected: {expected:?}"));
        }
        if let Some(difference) = self.lent.difference(&self.expected) {
            return self.differs(difference);
        }
        if session_stands && self.lent.part(SESSION) != self.expected.part(SESSION) {
            return self.differs("session memory changed".into());
        }
        let session = self.lent.part(SESSION);
        self.expected.part_mut(SESSION).copy_from_slice(session);
        let kept = self.second.as_ref().map(|second| second.session.kept());
        if kept.map_or(false, |kept| usize::from(self.lent.part(SESSION)[places::KEPT]) != kept) {
            return self.differs(format!("count of messages kept: expected {kept:?}"));
        }
        let partner = self.second.as_ref().map(|second| second.with.partner);
        if partner.map_or(false, |p| usize::from(self.lent.part(SESSION)[places::PARTNER]) != p) {
            return self.differs(format!("partner of the session: expected {partner:?}"));
        }
        let level = self.second.as_ref().map(|second| second.session.level().number());
        let level = self.relevelled.or(level);
        if level.map_or(false, |level| self.lent.part(SESSION)[places::LEVEL] != level) {
            return self.differs(format!("level in force: expected {level:?}"));
        }
        self.compare_tally()
    }

    /// "Keep both numbers in session memory, [...] right after an accepted open and [...]
    /// after every call. Beside them, on the same terms, [...] a tally sheet".
    fn compare_tally(&self) -> Checked {
        let expected = match &self.second {
            Some(second) => second.tally,
            None => return Ok(()),
        };
        let library = self.library_tally();
        if library != expected {
            let both = format!("library:  {library:?}\n  expected: {expected:?}");
            return self.differs(format!("the front panel's numbers\n  {both}"));
        }
        self.must(expected.sheet.adds_up(), "proposed is not the sum of the other four")
    }

    /// Demand 3, on both sides: "after the list, the table is as open found it but
    /// with the log's states" in the partner's column, "and the inbox up to its count is the log's messages
    /// kept, in order".
    pub fn demand_3(&self) -> Checked {
        let second = match &self.second {
            Some(second) => second,
            None => return Ok(()),
        };
        let Second { with, opened, trace, memory, .. } = second;
        let log = log::read(*with, opened, &memory.stores, trace);
        let mut table = second.opened_bytes.clone();
        for (entry, state) in table.chunks_mut(places::RECORD).zip(&log.states) {
            entry[with.partner] = *state as u8;
        }
        if self.lent.part(TABLE) != table {
            return self.differs("demand 3: the library's table isn't the log's".into());
        }
        if self.library_kept() != Some(log.kept.clone()) {
            return self.differs("demand 3: the library's inbox isn't the log's".into());
        }
        let mut records = opened.clone();
        for (record, state) in records.iter_mut().zip(&log.states) {
            record.states[with.partner] = *state;
        }
        if memory.table != records || second.kept() != log.kept {
            return self.differs("demand 3: the second implementation isn't the log's".into());
        }
        self.must(second.counted() == second.tally, "what was given has changed a number")
    }

    /// The library's messages up to its count, read from its bytes.
    pub fn library_kept(&self) -> Option<Vec<Kept>> {
        let count = usize::from(self.lent.part(SESSION)[places::KEPT]);
        let store = self.lent.part(STORE);
        let entries = self.lent.part(INBOX).chunks(places::ENTRY).take(count);
        entries.map(|entry| kept(&read_message(entry)?, store)).collect()
    }

    /// What the library's front panel shows.
    pub fn library_tally(&self) -> Tally {
        read_tally(self.lent.part(SESSION))
    }

    /// What must be so of the library, whatever the second implementation says.
    pub fn must(&self, right: bool, what: &str) -> Checked {
        match right {
            true => Ok(()),
            false => self.differs(what.into()),
        }
    }

    fn differs<T>(&self, what: String) -> Checked<T> {
        Err(self.history.difference(crate::describe::memory(&self.expected), what))
    }
}

impl Second {
    /// A call on buffers of other sizes, or of the same.
    fn call(
        &mut self,
        resize: Option<Resize>,
        call: impl FnOnce(&mut Session, &mut memory::Memory) -> Reply,
    ) -> Reply {
        let sizes = self.memory.sizes;
        if let Some(Resize { buffer, by }) = resize {
            let size = crate::describe::size_mut(&mut self.memory.sizes, buffer);
            *size = crate::guarded::moved(*size, by);
        }
        let reply = call(&mut self.session, &mut self.memory);
        self.memory.sizes = sizes;
        reply
    }

    pub fn trace(&self) -> &Trace {
        &self.trace
    }

    /// What the front panel shows, read anew from all that crossed the link.
    fn counted(&self) -> Tally {
        let Second { with, session, memory, opened, told, .. } = self;
        told.tally(*with, session, (opened, &memory.table), &memory.stores)
    }

    /// The table as open found it.
    pub fn opened(&self) -> &[Record] {
        &self.opened
    }

    fn kept(&self) -> Vec<Kept> {
        let messages = self.memory.inbox[..self.session.kept()].iter().flatten();
        messages.filter_map(|message| kept(message, &self.memory.store)).collect()
    }
}

fn kept(message: &memory::Message, store: &[u8]) -> Option<Kept> {
    Some(Kept {
        envelope: message.envelope.clone(),
        heading: message.heading.clone(),
        body: message.body.of(store)?.to_vec(),
    })
}
