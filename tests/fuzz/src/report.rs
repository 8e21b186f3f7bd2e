//! What is said about a difference.

use crate::lent::Resize;
use second::session::Reply;
use std::fmt::{self, Display};

/// A check's end: no difference, or the first one.
pub type Checked<T = ()> = Result<T, Box<Difference>>;

/// Longer portions are printed by their two ends.
const PRINTED: usize = 400;

/// A call made, for the report.
#[derive(Clone, Debug)]
pub enum Call {
    Open {
        role: u8,
        partner: u8,
    },
    Receive {
        bytes: Vec<u8>,
        resize: Option<Resize>,
    },
    Give {
        room: usize,
        place: usize,
        resize: Option<Resize>,
    },
    /// Not a call: all memory is again as the last call left it that didn't answer 1.
    Mend,
    /// Not a call: bytes of a buffer were changed from outside.
    Change {
        buffer: usize,
        place: usize,
        bytes: Vec<u8>,
    },
}

impl Display for Call {
    fn fmt(&self, f: &mut fmt::Formatter<'_>) -> fmt::Result {
        let other_size = |resize: &Option<Resize>| match resize {
            Some(Resize { buffer, by }) => format!(", buffer {buffer} lent {by:+} bytes"),
            None => String::new(),
        };
        match self {
            Call::Open { role, partner } => write!(f, "open, role {role}, partner {partner}"),
            Call::Receive { bytes, resize } => {
                let (length, size) = (bytes.len(), other_size(resize));
                write!(f, "receive {length} bytes \"{}\"{size}", escaped(bytes))
            }
            Call::Give { room, place, resize } => {
                write!(f, "give into {room} bytes from {place}{}", other_size(resize))
            }
            Call::Mend => write!(f, "memory mended"),
            Call::Change { buffer, place, bytes } => {
                write!(f, "change buffer {buffer} at {place} to {bytes:02x?}")
            }
        }
    }
}

pub fn escaped(bytes: &[u8]) -> String {
    if bytes.len() <= PRINTED {
        return bytes.escape_ascii().to_string();
    }
    let (front, rest) = bytes.split_at(PRINTED / 2);
    let back = &rest[rest.len() - PRINTED / 2..];
    format!("{} ... {}", front.escape_ascii(), back.escape_ascii())
}

/// The calls of a session so far, each with the library's reply.
#[derive(Clone, Debug, Default)]
pub struct History {
    calls: Vec<(Call, Option<Reply>)>,
}

impl History {
    pub fn begin(&mut self, call: Call) {
        self.calls.push((call, None));
    }

    pub fn end(&mut self, reply: Reply) {
        if let Some((_, last)) = self.calls.last_mut() {
            *last = Some(reply);
        }
    }

    pub fn count(&self) -> usize {
        self.calls.len()
    }

    /// Where and how the library went wrong.
    pub fn difference(&self, memory: String, what: String) -> Box<Difference> {
        Box::new(Difference { memory, history: self.clone(), what })
    }
}

/// One call after which the library isn't as it should be.
#[derive(Debug)]
pub struct Difference {
    memory: String,
    history: History,
    what: String,
}

impl Display for Difference {
    fn fmt(&self, f: &mut fmt::Formatter<'_>) -> fmt::Result {
        writeln!(f, "{}", self.memory)?;
        for (call, reply) in &self.history.calls {
            match reply {
                Some(Reply { answer, place, count }) => {
                    writeln!(f, "  {call} -> answer {answer}, place {place}, count {count}")?
                }
                None => writeln!(f, "  {call}")?,
            }
        }
        write!(f, "difference: {}", self.what)
    }
}
