//! The eight buffers that the library is lent.

use crate::guarded::Guarded;
use crate::library;
use inputs::random::Random;
use second::host::Buffers;
use second::layout::SESSION_FREE;
use second::session::Lent;

/// Places of the buffers in `Memory`, in the order of the C interface.
pub const SESSION: usize = 0;
pub const TABLE: usize = 1;
pub const TITLES: usize = 2;
pub const NAMES: usize = 3;
pub const BODIES: usize = 4;
pub const INBOX: usize = 6;
pub const STORE: usize = 7;

const SAID: [&str; 8] = [
    "session memory",
    "table",
    "title store",
    "name store",
    "body store",
    "known BIDs",
    "inbox",
    "inbox store",
];

/// Lends one buffer so many bytes longer (or shorter) than it is.
#[derive(Clone, Copy, Debug)]
pub struct Resize {
    pub buffer: usize,
    pub by: isize,
}

/// The buffers, each with margins.
#[derive(Clone, Debug)]
pub struct Memory {
    buffers: [Guarded; 8],
}

impl Memory {
    pub fn new(random: &mut Random, host: &Buffers) -> Memory {
        let Buffers { session, table, titles, names, bodies, known, inbox, store } = host;
        let all = [session, table, titles, names, bodies, known, inbox, store];
        Memory { buffers: all.map(|bytes| Guarded::new(random, bytes)) }
    }

    pub fn part(&self, buffer: usize) -> &[u8] {
        self.buffers[buffer].part()
    }

    pub fn part_mut(&mut self, buffer: usize) -> &mut [u8] {
        self.buffers[buffer].part_mut()
    }

    /// Lends all to the library.
    pub fn lend(&mut self, resize: Option<Resize>) -> library::Lent<'_> {
        let mut place = 0;
        let [session, table, titles, names, bodies, known, inbox, store] = &mut self.buffers;
        let buffers = [session, table, titles, names, bodies, known, inbox, store];
        let [session, table, titles, names, bodies, known, inbox, store] = buffers.map(|buffer| {
            let by = resize.filter(|resize| resize.buffer == place).map_or(0, |r| r.by);
            place += 1;
            buffer.resized(by)
        });
        library::Lent { session, table, titles, names, bodies, known, inbox, store }
    }

    /// What the second implementation opens.
    pub fn second(&self) -> Lent<'_> {
        let [session, table, titles, names, bodies, known, inbox, store] = &self.buffers;
        let buffers = [session, table, titles, names, bodies, known, inbox, store];
        let [session, table, titles, names, bodies, known, inbox, store] =
            buffers.map(Guarded::part);
        Lent { session: session.len(), table, titles, names, bodies, known, inbox, store }
    }

    /// The first buffer that differs from what is expected. Of session memory
    /// only the margins and the free bytes count.
    pub fn difference(&self, expected: &Memory) -> Option<String> {
        if self.buffers[SESSION].margins() != expected.buffers[SESSION].margins() {
            return Some("the bytes around session memory changed".into());
        }
        let (now, before) = (self.part(SESSION), expected.part(SESSION));
        if SESSION_FREE.iter().any(|free| now.get(free.clone()) != before.get(free.clone())) {
            return Some("a free byte of session memory changed".into());
        }
        (TABLE..self.buffers.len()).find_map(|place| self.said_difference(expected, place))
    }

    /// The first byte that differs, session memory included.
    pub fn change(&self, before: &Memory) -> Option<String> {
        (0..self.buffers.len()).find_map(|place| self.said_difference(before, place))
    }

    fn said_difference(&self, expected: &Memory, place: usize) -> Option<String> {
        let at = self.buffers[place].first_difference(&expected.buffers[place])?;
        let near = |memory: &Memory| {
            let bytes = memory.part(place);
            let start = usize::try_from(at).unwrap_or(0).min(bytes.len());
            bytes[start..bytes.len().min(start + 16)].escape_ascii().to_string()
        };
        Some(format!(
            "{} ({} bytes), byte {at} on: library \"{}\", expected \"{}\"",
            SAID[place],
            self.part(place).len(),
            near(self),
            near(expected)
        ))
    }
}
