//! The protocol's words alone: how fast transfers of the longest body are read
//! and written.

mod library;
mod second_side;

use crate::body;
use crate::timing::{self, ROUNDS};
use second::field::BODY_MAX;
use second::sid::Mode;
use second::transfer::writer::{write_framed, write_plain};
use std::time::{Duration, Instant};

/// So many messages are timed together, few enough that some batch runs with
/// nothing else in its way; the best one counts.
const BATCH: u32 = 4;
/// The size of a portion or a room where there are many.
const PORTION: usize = 256;

/// One message, and what it is on the link.
pub struct Message {
    mode: Mode,
    heading: Vec<u8>,
    body: Vec<u8>,
    text: Vec<u8>,
}

impl Message {
    fn new(mode: Mode) -> Message {
        let heading = b"A title of thirty bytes or so.".to_vec();
        let body = body();
        let text = match mode {
            Mode::Plain => write_plain(&heading, &body),
            Mode::Framed => write_framed(&heading, &body),
        };
        Message { mode, heading, body, text }
    }
}

/// Reads the message's text into a buffer, or writes it there, in portions of
/// so many bytes, and says how many bytes of the text it dealt with.
type Work = fn(&Message, &mut [u8], usize) -> usize;

/// Library and second implementation at the same work.
struct Pair {
    name: String,
    portion: usize,
    works: [Work; 2],
}

impl Pair {
    /// Both must leave these bytes at the front of the buffer.
    fn check(&self, message: &Message, expected: &[u8]) {
        for work in self.works {
            let mut buffer = vec![0; message.text.len()];
            assert_eq!(work(message, &mut buffer, self.portion), buffer.len(), "{}", self.name);
            assert!(buffer.starts_with(expected), "{}", self.name);
        }
    }

    /// Times both in turns and prints a line of the table. The buffers are as
    /// the work before left them.
    fn time(&self, message: &Message) {
        let [library, second] = self.works;
        let (mut a, mut b) = (vec![0; message.text.len()], vec![0; message.text.len()]);
        let best =
            timing::in_turns([&mut || batch(library, message, &mut a, self.portion), &mut || {
                batch(second, message, &mut b, self.portion)
            }]);
        let [library, second] = best.map(|seconds| BODY_MAX as f64 / seconds / 1e6);
        let ratio = library / second;
        println!("{:<34} {library:>9.0} {second:>9.0} {ratio:>9.3}", self.name);
    }
}

/// The time of one message in a batch.
fn batch(work: Work, message: &Message, buffer: &mut [u8], portion: usize) -> Duration {
    let start = Instant::now();
    for _ in 0..BATCH {
        timing::used(work(message, buffer, portion));
    }
    start.elapsed() / BATCH
}

pub fn run() {
    println!("Words: transfers of {BODY_MAX} bytes, MB of body a second, best batch of {BATCH}");
    println!("messages in {ROUNDS} rounds, buffers not cleared between messages.");
    println!("{:<34} {:>9} {:>9} {:>9}", "", "library", "second", "ratio");
    for (mode, word) in [(Mode::Framed, "framed"), (Mode::Plain, "plain")] {
        let message = Message::new(mode);
        for (portion, how) in [(message.text.len(), "at once"), (PORTION, "256 bytes at a time")] {
            let name = format!("{word}, read {how}");
            let reading = Pair { name, portion, works: [library::read, second_side::read] };
            reading.check(&message, &message.body);
            reading.time(&message);
            let name = format!("{word}, written {how}");
            let writing = Pair { name, portion, works: [library::write, second_side::write] };
            writing.check(&message, &message.text);
            writing.time(&message);
        }
    }
}
