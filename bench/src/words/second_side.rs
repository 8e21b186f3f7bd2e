//! The second implementation's side.

use super::Message;
use second::transfer::reader::Reader;
use second::transfer::writer::Writer;
use second::transfer::Outcome;

/// Reads the text in portions; the body goes to the front of `buffer`.
pub fn read(message: &Message, buffer: &mut [u8], portion: usize) -> usize {
    let mut reader = Reader::new(message.mode);
    let mut taken = 0;
    for part in message.text.chunks(portion) {
        let (count, outcome) = reader.feed(part, buffer);
        assert!(matches!(outcome, Outcome::More | Outcome::Whole), "refused");
        taken += count;
    }
    assert_eq!(reader.body_length(), message.body.len());
    taken
}

/// Writes the text in rooms of `portion` bytes, one after another in `buffer`.
pub fn write(message: &Message, buffer: &mut [u8], portion: usize) -> usize {
    let mut writer = Writer::new(message.mode, &message.heading, &message.body);
    buffer.chunks_mut(portion).map(|room| writer.give(room)).sum()
}
