//! The cost of the form test: a call that deals with one byte, with nothing in
//! table, known BIDs and inbox and with as much as there may be. Apart from that,
//! the one byte at which a block is answered.

mod states;

use crate::end::{End, Library};
use crate::{timing, Mode};
use second::memory::{KNOWN_MAX, MESSAGES_MAX, RECORDS_MAX};
use second::session::Reply;
use std::time::{Duration, Instant};

/// So many calls are timed together.
const BATCH: u32 = 200;

/// What is called, with one byte or room for one.
#[derive(Clone, Copy)]
enum Call {
    Receive(u8),
    Give,
}

/// One line of the table: the same call in a small session and in a full one.
pub struct Row {
    pub name: &'static str,
    call: Call,
    reply: Reply,
    empty: fn() -> Library,
    full: fn() -> Library,
}

impl Row {
    fn new(name: &'static str, call: Call, empty: fn() -> Library, full: fn() -> Library) -> Row {
        Row { name, call, reply: Reply::ok(1), empty, full }
    }

    /// The library's function that is called.
    pub fn symbol(&self) -> &'static str {
        match self.call {
            Call::Receive(_) => "fringemole_receive",
            Call::Give => "fringemole_give",
        }
    }

    fn answers(self, answer: u8, place: u8) -> Row {
        Row { reply: Reply { answer, place, count: 0 }, ..self }
    }
}

pub fn rows() -> Vec<Row> {
    [form_test(), answering()].into_iter().flatten().collect()
}

fn form_test() -> Vec<Row> {
    [lines(), transfers(), refused(), waiting(), gives()].into_iter().flatten().collect()
}

fn lines() -> Vec<Row> {
    use states::*;
    let letter = Call::Receive(b'F');
    vec![
        Row::new("receive, the SID awaited", Call::Receive(b'['), sid_empty, sid_full),
        Row::new("receive, the prompt awaited", letter, prompt_empty, prompt_full),
        Row::new("receive, a turn awaited", letter, line_empty, line_full),
        Row::new("receive, FS awaited", letter, fs_empty, fs_full),
    ]
}

fn transfers() -> Vec<Row> {
    use states::*;
    let (data, last) = (Call::Receive(b'a'), Call::Receive(last_byte()));
    vec![
        Row::new(
            "receive, a framed transfer under way",
            data,
            || data_empty(Mode::Framed),
            || data_full(Mode::Framed),
        ),
        Row::new(
            "receive, a plain transfer under way",
            data,
            || data_empty(Mode::Plain),
            || data_full(Mode::Plain),
        ),
        Row::new("receive, the byte that keeps a message", last, keeping_empty, keeping_full),
    ]
}

fn refused() -> Vec<Row> {
    use states::*;
    let letter = Call::Receive(b'F');
    vec![
        Row::new("receive, ended: answer 12", letter, over_empty, over_full).answers(12, 0),
        Row::new("receive, form test fails: answer 1", letter, failing_empty, failing_full)
            .answers(1, 255),
    ]
}

/// While bytes wait: the LF after the partner's CR.
fn waiting() -> Vec<Row> {
    use states::*;
    let lf = Call::Receive(b'\n');
    vec![
        Row::new("receive, FS line and block wait", lf, fq_waits, block_waits),
        Row::new("receive, five transfers wait", lf, fq_waits, || transfers_wait(LeftOf::All)),
        Row::new("receive, half of the fifth waits", lf, fq_waits, || transfers_wait(LeftOf::Half)),
        Row::new("receive, the last checksum waits", lf, fq_waits, || {
            transfers_wait(LeftOf::Checksum)
        }),
    ]
}

fn gives() -> Vec<Row> {
    use states::*;
    let give = Call::Give;
    vec![
        Row::new("give, FS line and block wait", give, fq_waits, block_waits),
        Row::new("give, five transfers wait", give, fq_waits, || transfers_wait(LeftOf::All)),
        Row::new("give, half of the fifth waits", give, fq_waits, || transfers_wait(LeftOf::Half)),
        Row::new("give, the last checksum waits", give, fq_waits, || {
            transfers_wait(LeftOf::Checksum)
        }),
    ]
}

/// Five BIDs against all that there may be, and our turn.
fn answering() -> Vec<Row> {
    let cr = Call::Receive(b'\r');
    vec![Row::new(
        "receive, CR of F> after five proposals",
        cr,
        states::five_empty,
        states::five_full,
    )]
}

/// A session in a state, and what a call changes of session memory there.
struct Player {
    end: Library,
    call: Call,
    changes: Vec<(usize, u8)>,
}

impl Player {
    fn new(end: Library, row: &Row) -> Player {
        let mut player = Player { end, call: row.call, changes: Vec::new() };
        let before = player.end.mark();
        assert_eq!(player.call(), row.reply, "{}", row.name);
        let after = player.end.mark();
        let changed = (0..before.len()).filter(|&at| before[at] != after[at]);
        player.changes = changed.map(|at| (at, before[at])).collect();
        player.end.rewind(&before);
        player
    }

    fn call(&mut self) -> Reply {
        match self.call {
            Call::Receive(byte) => self.end.receive(&[byte]),
            Call::Give => self.end.give(&mut [0]),
        }
    }

    /// Calls so often, each time on the same memory.
    fn play(&mut self, times: u32) -> Duration {
        let start = Instant::now();
        for _ in 0..times {
            timing::used(self.call().count);
            for &(at, byte) in &self.changes {
                self.end.buffers.session[at] = byte;
            }
        }
        start.elapsed()
    }
}

/// Plays a row so many times, for a tool that counts what is done.
pub fn play(row: &Row, side: &str, times: usize) -> bool {
    let end = match side {
        "empty" => (row.empty)(),
        "full" => (row.full)(),
        _ => return false,
    };
    Player::new(end, row).play(times as u32);
    true
}

pub fn run() {
    println!("A call with one byte, in nanoseconds: empty, and with {RECORDS_MAX} records,");
    println!("{KNOWN_MAX} known BIDs and an inbox of {MESSAGES_MAX} places, as many kept as can be there.");
    print(&form_test());
    println!("\nThe same, at the byte where a block is answered: the work of answering.");
    print(&answering());
}

fn print(rows: &[Row]) {
    println!("{:<40} {:>9} {:>9} {:>9}", "", "empty", "full", "ratio");
    for row in rows {
        let mut empty = Player::new((row.empty)(), row);
        let mut full = Player::new((row.full)(), row);
        let best = timing::in_turns([&mut || empty.play(BATCH), &mut || full.play(BATCH)]);
        let [empty, full] = best.map(|time| time / f64::from(BATCH) * 1e9);
        let ratio = full / empty;
        println!("{:<40} {empty:>9.0} {full:>9.0} {ratio:>9.2}", row.name);
    }
}
