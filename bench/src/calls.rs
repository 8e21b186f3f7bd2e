//! Receive and give of a block of five messages.

use crate::end::{End, Library, Second};
use crate::timing::{self, ROUNDS};
use crate::{body, transfer, Mode};
use second::field::BODY_MAX;
use second::host::{Buffers, Letter};
use second::proposal::BLOCK_LIMIT;
use std::time::{Duration, Instant};

const TITLE: &[u8] = b"A title of thirty bytes or so.";
const ACCEPTED: &[u8] = b"FS +++++\r";

/// What crosses the link: messages from the partner, or ours.
#[derive(Clone, Copy)]
enum Way {
    Received,
    Given,
}

/// How the link takes or brings the bytes: what it is called, bytes of a body,
/// bytes a call. Byte by byte a body is short, so that some run of it has
/// nothing else in its way.
const PACES: [(&str, usize, usize); 3] = [
    ("at once", BODY_MAX, usize::MAX),
    ("256 bytes at a time", BODY_MAX, 256),
    ("byte by byte", 1_000, 1),
];

/// One line of the table.
pub struct Row {
    pub name: String,
    mode: Mode,
    way: Way,
    length: usize,
    portion: usize,
}

pub fn rows() -> Vec<Row> {
    let mut rows = Vec::new();
    for (mode, word) in [(Mode::Framed, "framed"), (Mode::Plain, "plain")] {
        for (way, done) in [(Way::Received, "received"), (Way::Given, "given")] {
            for (pace, length, portion) in PACES {
                let name = format!("{word}, {done} {pace}");
                rows.push(Row { name, mode, way, length, portion });
            }
        }
    }
    rows
}

impl Row {
    /// Bytes of all five bodies.
    pub fn bytes(&self) -> usize {
        BLOCK_LIMIT * self.length
    }

    fn body(&self) -> Vec<u8> {
        body()[..self.length].to_vec()
    }

    /// The partner's five messages are proposed and accepted.
    fn before_theirs<E: End>(&self) -> E {
        let mut end = E::open(Buffers::new(BLOCK_LIMIT, self.bytes()));
        end.say();
        end.hear(sid(self.mode));
        for place in 0..BLOCK_LIMIT {
            end.hear(&proposal(self.mode, place, self.length));
            end.hear(b"\r");
        }
        end.hear(b"F>\r");
        assert_eq!(end.say(), ACCEPTED);
        end
    }

    /// Our five messages are proposed. A small announced size lets five into a
    /// block.
    fn before_ours<E: End>(&self) -> E {
        let mut host = Buffers::new(0, 0);
        for place in 0..BLOCK_LIMIT {
            let line = proposal(self.mode, place, 1);
            host.add(&Letter::new(self.mode, &line, TITLE, &self.body()));
        }
        let mut end = E::open(host);
        end.say();
        end.hear(sid(self.mode));
        end.hear(b"FF\r");
        assert!(end.say().ends_with(b"F>\r"));
        end
    }
}

/// An end that stands before the transfers, and what they are.
struct Player<'a, E: End> {
    row: &'a Row,
    end: E,
    mark: E::Mark,
    text: Vec<u8>,
    out: Vec<u8>,
    portion: usize,
}

impl<E: End> Player<'_, E> {
    fn new(row: &Row) -> Player<'_, E> {
        let end: E = match row.way {
            Way::Received => row.before_theirs(),
            Way::Given => row.before_ours(),
        };
        let text = transfer(row.mode, TITLE, &row.body()).repeat(BLOCK_LIMIT);
        let (out, portion) = (vec![0; text.len()], row.portion.min(text.len()));
        Player { row, mark: end.mark(), end, text, out, portion }
    }

    /// The transfers, from before them on. Ours begin with the FS line: there
    /// the second implementation writes down all that it will give.
    fn play(&mut self) -> Duration {
        self.end.rewind(&self.mark);
        let start = Instant::now();
        match self.row.way {
            Way::Received => {
                for part in self.text.chunks(self.portion) {
                    assert_eq!(self.end.receive(part).count, part.len());
                }
            }
            Way::Given => {
                self.end.receive(ACCEPTED);
                for room in self.out.chunks_mut(self.portion) {
                    assert_eq!(self.end.give(room).count, room.len());
                }
            }
        }
        start.elapsed()
    }

    /// Plays once and looks at what came of it.
    fn check(&mut self) {
        self.play();
        match self.row.way {
            Way::Received => assert_eq!(self.end.store(), self.row.body().repeat(BLOCK_LIMIT)),
            Way::Given => assert_eq!(self.out, self.text),
        }
    }
}

fn sid(mode: Mode) -> &'static [u8] {
    match mode {
        Mode::Plain => b"[TST-1-F$]\r",
        Mode::Framed => b"[TST-1-BF$]\r",
    }
}

/// A proposal without CR.
fn proposal(mode: Mode, place: usize, size: usize) -> Vec<u8> {
    let letter = if mode == Mode::Framed { 'A' } else { 'B' };
    format!("F{letter} B F6FBB FC1GHV.FFPC.FRA.EU ALL {place}_F6FBB {size}").into_bytes()
}

/// Plays a row so many times, for a tool that counts what is done.
pub fn play(row: &Row, side: &str, times: usize) -> bool {
    fn all<E: End>(row: &Row, times: usize) {
        let mut player = Player::<E>::new(row);
        for _ in 0..times {
            player.play();
        }
    }
    match side {
        "library" => all::<Library>(row, times),
        "second" => all::<Second>(row, times),
        _ => return false,
    }
    true
}

pub fn run() {
    println!(
        "Calls: {BLOCK_LIMIT} messages of {BODY_MAX} bytes, byte by byte of 1000; MB of body a"
    );
    println!("second, the best in {ROUNDS} rounds. Ours count from the partner's FS line on.");
    println!("{:<38} {:>9} {:>9} {:>9}", "", "library", "second", "ratio");
    for row in rows() {
        let (mut library, mut second) = (Player::<Library>::new(&row), Player::<Second>::new(&row));
        library.check();
        second.check();
        let best = timing::in_turns([&mut || library.play(), &mut || second.play()]);
        let [library, second] = best.map(|time| row.bytes() as f64 / time / 1e6);
        let ratio = library / second;
        println!("{:<38} {library:>9.1} {second:>9.1} {ratio:>9.3}", row.name);
    }
}
