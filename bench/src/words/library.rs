//! The proved library's side.

use super::Message;
use compare::words::{self, Room, Transfer};
use second::sid::Mode;

/// Reads the text in portions; the body goes to the front of `buffer`.
pub fn read(message: &Message, buffer: &mut [u8], portion: usize) -> usize {
    let form = match message.mode {
        Mode::Plain => 0,
        Mode::Framed => 1,
    };
    let mut transfer = Transfer::start(form);
    let mut heading = [0; 80];
    let mut taken = 0;
    for part in message.text.chunks(portion) {
        let outcome = transfer.feed(part, &mut heading, buffer);
        assert!(outcome < 2, "refused");
        taken += transfer.consumed() as usize;
    }
    assert_eq!(transfer.body_length() as usize, message.body.len());
    taken
}

/// Writes the text in rooms of `portion` bytes, one after another in `buffer`.
pub fn write(message: &Message, buffer: &mut [u8], portion: usize) -> usize {
    let mut skip = 0;
    for buffer in buffer.chunks_mut(portion) {
        let room = Room { buffer, place: 0, skip };
        skip += match message.mode {
            Mode::Plain => words::write_plain(room, &message.heading, &message.body),
            Mode::Framed => words::write_framed(room, &message.heading, &message.body),
        };
    }
    skip
}
