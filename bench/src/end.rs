//! One end of a session, by the library or by the second implementation, as a
//! host drives it.

use fuzz::library;
use second::host::Buffers;
use second::memory::Memory;
use second::session::{self, Reply, Session, CALLED, CALLER};

/// Whom it is with.
const PARTNER: u8 = 0;

pub trait End {
    /// What rewinds the session. Table, inbox and store stay as they are: up to
    /// the session's counts nothing of them changes in what is measured.
    type Mark;

    fn open(host: Buffers) -> Self;
    fn receive(&mut self, bytes: &[u8]) -> Reply;
    fn give(&mut self, room: &mut [u8]) -> Reply;
    fn mark(&self) -> Self::Mark;
    fn rewind(&mut self, mark: &Self::Mark);
    /// The inbox store.
    fn store(&self) -> &[u8];

    /// Takes bytes, all of them.
    fn hear(&mut self, bytes: &[u8]) {
        assert_eq!(self.receive(bytes), Reply::ok(bytes.len()));
    }

    /// Gives all that waits.
    fn say(&mut self) -> Vec<u8> {
        let (mut said, mut room) = (Vec::new(), [0; 4_096]);
        loop {
            let reply = self.give(&mut room);
            assert_eq!(reply.answer, 0);
            if reply.count == 0 {
                return said;
            }
            said.extend_from_slice(&room[..reply.count]);
        }
    }
}

pub struct Library {
    pub buffers: Buffers,
}

impl Library {
    /// The calling station; [`End::open`] is the called one.
    pub fn call(host: Buffers) -> Library {
        Library::in_role(CALLER, host)
    }

    fn in_role(role: u8, host: Buffers) -> Library {
        let mut end = Library { buffers: host };
        assert_eq!(library::open(role, PARTNER, end.lend()), Reply::ok(0));
        end
    }

    fn lend(&mut self) -> library::Lent<'_> {
        let Buffers { session, table, titles, names, bodies, known, inbox, store } =
            &mut self.buffers;
        library::Lent { session, table, titles, names, bodies, known, inbox, store }
    }
}

impl End for Library {
    /// Session memory.
    type Mark = Vec<u8>;

    fn open(host: Buffers) -> Library {
        Library::in_role(CALLED, host)
    }

    fn receive(&mut self, bytes: &[u8]) -> Reply {
        library::receive(self.lend(), bytes)
    }

    fn give(&mut self, room: &mut [u8]) -> Reply {
        library::give(self.lend(), room, 0)
    }

    fn mark(&self) -> Vec<u8> {
        self.buffers.session.clone()
    }

    fn rewind(&mut self, mark: &Vec<u8>) {
        self.buffers.session.copy_from_slice(mark);
    }

    fn store(&self) -> &[u8] {
        &self.buffers.store
    }
}

pub struct Second {
    session: Session,
    memory: Memory,
}

impl End for Second {
    type Mark = Session;

    fn open(host: Buffers) -> Second {
        let (session, memory) = session::open(CALLED, PARTNER, &host.lent()).expect("a good host");
        Second { session, memory }
    }

    fn receive(&mut self, bytes: &[u8]) -> Reply {
        self.session.receive(&mut self.memory, bytes)
    }

    fn give(&mut self, room: &mut [u8]) -> Reply {
        self.session.give(&self.memory, room, 0)
    }

    fn mark(&self) -> Session {
        self.session.clone()
    }

    fn rewind(&mut self, mark: &Session) {
        self.session = mark.clone();
    }

    fn store(&self) -> &[u8] {
        &self.memory.store
    }
}
