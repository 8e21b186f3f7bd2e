//! The papers' own sessions, and the requests', as they look on the air, with what
//! must stand at their end. The unit tests play them; the fuzzer cuts them at every byte.

use crate::host::{Buffers, Letter};
use crate::memory::State;
use crate::refusal;

mod paper002;
mod paper003;
mod paper01;
mod request1;
pub mod request3;
mod request5;
mod request6;

/// What one side says, whole, while the other listens.
#[derive(Clone, Debug, PartialEq, Eq)]
pub enum Said {
    Us(Vec<u8>),
    Partner(Vec<u8>),
}

fn us(bytes: impl AsRef<[u8]>) -> Said {
    Said::Us(bytes.as_ref().to_vec())
}

fn partner(bytes: impl AsRef<[u8]>) -> Said {
    Said::Partner(bytes.as_ref().to_vec())
}

const OUR_SID: &[u8] = b"[NOD-1-B1FH$]\r";

/// Where the first line that isn't a `;` line ends, its LF included.
fn sid_line_end(bytes: &[u8]) -> usize {
    let mut start = 0;
    loop {
        let line = &bytes[start..];
        let cr = line.iter().position(|&byte| byte == b'\r').expect("a whole line");
        let lf = usize::from(line.get(cr + 1) == Some(&b'\n'));
        let comment = line.starts_with(b";");
        start += cr + 1 + lf;
        if !comment {
            return start;
        }
    }
}

/// BID, title or name, and body of a message in the inbox.
pub type Taken = (&'static [u8], &'static [u8], &'static [u8]);

/// A session.
#[derive(Clone, Debug)]
pub struct Example {
    pub name: String,
    pub we_called: bool,
    /// Our table.
    pub letters: Vec<Letter>,
    pub known: Vec<&'static [u8]>,
    /// Bytes of the inbox store; it always has eight places.
    pub room: usize,
    pub script: Vec<Said>,
    /// The answer of the last receive. If it refuses, the last byte that the
    /// partner says is the refused one, and what we say after it says why.
    pub answer: u8,
    /// At the end, in table order.
    pub states: Vec<State>,
    pub inbox: Vec<Taken>,
}

impl Example {
    /// A session that ends without refusal, with nothing in any buffer.
    fn new(name: &'static str, we_called: bool, script: Vec<Said>) -> Example {
        Example {
            name: name.to_owned(),
            we_called,
            letters: Vec::new(),
            known: Vec::new(),
            room: 20_000,
            script,
            answer: refusal::NONE,
            states: Vec::new(),
            inbox: Vec::new(),
        }
    }

    fn letters(self, letters: Vec<Letter>, states: &[State]) -> Example {
        Example { letters, states: states.to_vec(), ..self }
    }

    fn known(self, known: &[&'static [u8]]) -> Example {
        Example { known: known.to_vec(), ..self }
    }

    fn inbox(self, inbox: &[Taken]) -> Example {
        Example { inbox: inbox.to_vec(), ..self }
    }

    fn refused(self, answer: u8) -> Example {
        Example { answer, ..self }
    }

    /// Request Q-1: a session that is refused ends with our line that says why.
    fn parted(mut self) -> Example {
        match self.answer {
            refusal::NONE | refusal::BYTES_WAIT => {}
            refusal::BAD_CHECKSUM => self.script.push(us("*** Checksum error\r")),
            _ => self.script.push(us("*** Protocol error\r")),
        }
        self
    }

    /// The same session with us in the other role, where the paper's own role
    /// isn't what it is about. Who speaks first turns round with the role: as
    /// caller we begin with FF or with our block, as called station the partner
    /// begins with what it said after our FF, or with FF if we have a block.
    fn other_role(&self) -> Example {
        let script = if self.we_called { self.as_called() } else { self.as_caller() };
        let name = format!("{}, other role", self.name);
        Example { name, we_called: !self.we_called, script, ..self.clone() }
    }

    /// What the partner and we said after the openings; the first is the
    /// partner's SID line with what stands before it.
    fn after_openings(&self) -> (Vec<u8>, Vec<Said>) {
        let mut rest = self.script.clone();
        if !self.we_called {
            rest.remove(0);
        }
        let first = match rest.remove(0) {
            Said::Partner(first) => first,
            _ => panic!("{}: no SID", self.name),
        };
        let end = sid_line_end(&first);
        if self.we_called {
            if let Some(Said::Us(ours)) = rest.first_mut() {
                ours.drain(..OUR_SID.len());
            }
        } else if end < first.len() {
            rest.insert(0, Said::Partner(first[end..].to_vec()));
        }
        (first[..end].to_vec(), rest)
    }

    fn as_called(&self) -> Vec<Said> {
        let (mut sid, mut rest) = self.after_openings();
        match rest.first() {
            Some(Said::Us(ours)) if ours == b"FF\r" => {
                rest.remove(0);
                let turn = match rest.remove(0) {
                    Said::Partner(turn) => turn,
                    _ => panic!("{}: no turn", self.name),
                };
                sid.extend(turn);
            }
            Some(_) => sid.extend(b"FF\r"),
            None => {}
        }
        [vec![us([OUR_SID, b">\r"].concat()), Said::Partner(sid)], rest].concat()
    }

    fn as_caller(&self) -> Vec<Said> {
        let (mut sid, rest) = self.after_openings();
        if rest.is_empty() {
            return vec![Said::Partner(sid)];
        }
        sid.extend(b">\r");
        [vec![Said::Partner(sid), us([OUR_SID, b"FF\r"].concat())], rest].concat()
    }

    /// The role's number.
    pub fn role(&self) -> u8 {
        self.we_called.into()
    }

    pub fn buffers(&self) -> Buffers {
        let mut buffers = Buffers::new(8, self.room);
        self.letters.iter().for_each(|letter| buffers.add(letter));
        self.known.iter().for_each(|bid| buffers.know(bid));
        buffers
    }
}

/// These, and each from the other end.
fn both_roles(examples: Vec<Example>) -> Vec<Example> {
    examples.into_iter().flat_map(|example| [example.other_role(), example]).collect()
}

/// Every session, the shortest papers first.
pub fn all() -> Vec<Example> {
    let papers = [paper01::all(), paper002::all(), paper003::all()].concat();
    let requests = [request5::all(), request6::all(), request1::all()].concat();
    papers.into_iter().chain(requests).map(Example::parted).collect()
}
