//! Reads a transfer in any portions, byte runs of the body at a time.

use super::{sum, Outcome, BLOCK, BLOCK_BYTES, END, HEADER, OFFSET_DIGITS};
use crate::field::{is_heading_byte, BODY_END, BODY_MAX, HEADING_MAX};
use crate::line::CR;
use crate::refusal::Refusal;
use crate::sid::Mode;
use std::ops::RangeInclusive;

/// What the next byte is.
#[derive(Clone, Copy, Debug)]
enum Stage {
    // Plain: title, CR, body, 0x1A, spaces, CR.
    Title,
    Body,
    AfterBody,
    // Framed: 01, L, heading, 00, offset digits, 00; 02, n, data; 04, checksum.
    Start,
    Length,
    /// `both`: heading and offset digits together, as L has it.
    Heading {
        both: usize,
    },
    Offset {
        left: usize,
    },
    Mark,
    BlockLength,
    Data {
        left: usize,
    },
    Checksum,
}

/// A transfer under way. The body goes to a store that is lent with each
/// portion, the same one each time.
#[derive(Clone, Debug)]
pub struct Reader {
    stage: Stage,
    outcome: Outcome,
    heading: Vec<u8>,
    body: usize,
    sum: u8,
}

/// One byte's effect: the next stage, or no next stage.
type Next = Result<Stage, Outcome>;

const WRONG: Next = Err(Outcome::Refused(Refusal::WrongTransfer));

impl Reader {
    pub fn new(mode: Mode) -> Reader {
        Reader {
            stage: match mode {
                Mode::Plain => Stage::Title,
                Mode::Framed => Stage::Start,
            },
            outcome: Outcome::More,
            heading: Vec::with_capacity(HEADING_MAX),
            body: 0,
            sum: 0,
        }
    }

    /// True from the transfer's first byte on.
    pub fn has_begun(&self) -> bool {
        !matches!(self.stage, Stage::Start | Stage::Title) || !self.heading.is_empty()
    }

    /// The title or name so far.
    pub fn heading(&self) -> &[u8] {
        &self.heading
    }

    /// How many bytes of the store are the body so far.
    pub fn body_length(&self) -> usize {
        self.body
    }

    /// Feeds a portion, to its end or to an outcome. Says how many bytes it
    /// took, the refused one included; after an outcome it takes none.
    pub fn feed(&mut self, portion: &[u8], store: &mut [u8]) -> (usize, Outcome) {
        let room = store.len().min(BODY_MAX);
        let mut taken = 0;
        while self.outcome == Outcome::More && taken < portion.len() {
            let rest = &portion[taken..];
            let free = &mut store[self.body..room];
            let (count, next) = match self.stage {
                Stage::Body => self.plain_run(rest, free),
                Stage::Data { left } => self.data_run(rest, free, left),
                _ => (1, self.step(rest[0])),
            };
            taken += count;
            match next {
                Ok(stage) => self.stage = stage,
                Err(outcome) => self.outcome = outcome,
            }
        }
        (taken, self.outcome)
    }

    /// Body bytes up to 0x1A, or to the end of the portion or of the room.
    fn plain_run(&mut self, rest: &[u8], free: &mut [u8]) -> (usize, Next) {
        let end = rest.iter().position(|&byte| byte == BODY_END);
        let run = end.unwrap_or(rest.len());
        if run > free.len() {
            return self.no_room(rest, free);
        }
        self.keep(&rest[..run], free);
        match end {
            Some(_) => (run + 1, Ok(Stage::AfterBody)),
            None => (run, Ok(Stage::Body)),
        }
    }

    /// Data bytes up to the end of the block, of the portion or of the room.
    fn data_run(&mut self, rest: &[u8], free: &mut [u8], left: usize) -> (usize, Next) {
        let run = left.min(rest.len());
        if run > free.len() {
            return self.no_room(rest, free);
        }
        self.keep(&rest[..run], free);
        self.sum = self.sum.wrapping_add(sum(&rest[..run]));
        let next = match left - run {
            0 => Stage::Mark,
            left => Stage::Data { left },
        };
        (run, Ok(next))
    }

    fn keep(&mut self, run: &[u8], free: &mut [u8]) {
        free[..run.len()].copy_from_slice(run);
        self.body += run.len();
    }

    /// Keeps what there is room for; "body byte without room" is refused.
    fn no_room(&mut self, rest: &[u8], free: &mut [u8]) -> (usize, Next) {
        let fits = free.len();
        self.keep(&rest[..fits], free);
        (fits + 1, Err(Outcome::Refused(Refusal::NoRoom)))
    }

    /// Any byte but one of the body.
    fn step(&mut self, byte: u8) -> Next {
        match (self.stage, byte) {
            (Stage::Title, _) => self.title_step(byte),
            // "Spaces between the last two are skipped on reading."
            (Stage::AfterBody, b' ') => Ok(Stage::AfterBody),
            (Stage::AfterBody, CR) => Err(Outcome::Whole),
            (Stage::Start, HEADER) => Ok(Stage::Length),
            (Stage::Length, length) => length_step(length),
            (Stage::Heading { both }, _) => self.heading_step(byte, both),
            (Stage::Offset { left: 0 }, 0) => Ok(Stage::Mark),
            // "Offset has 1 to 6 digits, value 0."
            (Stage::Offset { left: left @ 1.. }, b'0') => Ok(Stage::Offset { left: left - 1 }),
            (Stage::Mark, BLOCK) => Ok(Stage::BlockLength),
            (Stage::Mark, END) => Ok(Stage::Checksum),
            // "n = 00 means 256."
            (Stage::BlockLength, 0) => Ok(Stage::Data { left: BLOCK_BYTES }),
            (Stage::BlockLength, n) => Ok(Stage::Data { left: n.into() }),
            (Stage::Checksum, check) => match self.sum.wrapping_add(check) {
                0 => Err(Outcome::Whole),
                _ => Err(Outcome::Refused(Refusal::WrongChecksum)),
            },
            _ => WRONG,
        }
    }

    /// A byte of a plain title, or the CR after it.
    fn title_step(&mut self, byte: u8) -> Next {
        match byte {
            CR if !self.heading.is_empty() => Ok(Stage::Body),
            _ if is_heading_byte(byte) && self.heading.len() < HEADING_MAX => {
                self.heading.push(byte);
                Ok(Stage::Title)
            }
            _ => WRONG,
        }
    }

    /// A byte of a framed heading, or the 00 after it. DECISIONS 18: "a heading
    /// byte too many, a 00 too early" are refused at that byte.
    fn heading_step(&mut self, byte: u8, both: usize) -> Next {
        let length = self.heading.len();
        let lengths = heading_lengths(both);
        match byte {
            0 if lengths.contains(&length) => Ok(Stage::Offset { left: both - length }),
            _ if is_heading_byte(byte) && length < *lengths.end() => {
                self.heading.push(byte);
                Ok(self.stage)
            }
            _ => WRONG,
        }
    }
}

/// "L = heading + offset + 2." DECISIONS 18: an L that no heading and offset can
/// make is refused at once.
fn length_step(length: u8) -> Next {
    match usize::from(length).checked_sub(2) {
        Some(both) if !heading_lengths(both).is_empty() => Ok(Stage::Heading { both }),
        _ => WRONG,
    }
}

/// The lengths that leave 1 to 6 of `both` to the offset.
fn heading_lengths(both: usize) -> RangeInclusive<usize> {
    let least = both.saturating_sub(OFFSET_DIGITS).max(1);
    let most = both.saturating_sub(1).min(HEADING_MAX);
    least..=most
}

#[cfg(test)]
mod tests {
    use super::super::whole::{read_framed, read_plain, Reading};
    use super::*;

    const FRAMED: &[u8] = b"\x01\x05HI\x000\x00\x02\x02AB\x04\x7D";
    const PLAIN: &[u8] = b"HI\r\nAB\x1A  \r";

    fn whole(mode: Mode, bytes: &[u8], room: usize) -> Reading<'_> {
        match mode {
            Mode::Plain => read_plain(bytes, room),
            Mode::Framed => read_framed(bytes, room),
        }
    }

    /// Reads in portions of one size and holds the state after each to the
    /// whole reader; store bytes past the body must stay as they were.
    fn check_portions(mode: Mode, bytes: &[u8], room: usize, size: usize) {
        let mut reader = Reader::new(mode);
        let mut store = vec![0x55; room];
        let mut total = 0;
        for portion in bytes.chunks(size) {
            let (taken, outcome) = reader.feed(portion, &mut store);
            total += taken;
            let expected = whole(mode, &bytes[..total.max(1)], room);
            assert_eq!(outcome, expected.outcome, "{bytes:x?}");
            assert_eq!(total, expected.consumed);
            assert_eq!(reader.heading(), expected.heading);
            let (body, past) = store.split_at(reader.body_length());
            assert_eq!(body, expected.body);
            assert!(past.iter().all(|&byte| byte == 0x55));
            if outcome != Outcome::More {
                assert_eq!(reader.feed(b"more", &mut store), (0, outcome));
                return;
            }
            assert_eq!(taken, portion.len());
        }
    }

    fn check(mode: Mode, bytes: &[u8], room: usize) {
        for size in [1, 2, 3, 7, 256, bytes.len().max(1)] {
            check_portions(mode, bytes, room, size);
        }
    }

    #[test]
    fn examples_in_any_portions() {
        for room in 0..5 {
            check(Mode::Framed, FRAMED, room);
            check(Mode::Plain, PLAIN, room);
        }
    }

    #[test]
    fn no_bytes_change_nothing() {
        let mut reader = Reader::new(Mode::Plain);
        assert_eq!(reader.feed(b"", &mut []), (0, Outcome::More));
    }

    #[test]
    fn every_byte_at_every_place() {
        for (mode, example) in [(Mode::Framed, FRAMED), (Mode::Plain, PLAIN)] {
            for place in 0..example.len() {
                for byte in 0..=255 {
                    let mut bytes = example.to_vec();
                    bytes[place] = byte;
                    check(mode, &bytes, 3);
                }
            }
        }
    }

    #[test]
    fn every_header_length_with_every_heading() {
        for length in 0..=255 {
            for heading in [0, 1, 2, 74, 79, 80, 81] {
                for offset in 0..8 {
                    let text = [vec![b'x'; heading], vec![b'0'; offset]].join(&0);
                    let bytes = [&[HEADER, length], &text[..], &[0, END, 0]].concat();
                    check_portions(Mode::Framed, &bytes, 0, 5);
                }
            }
        }
    }

    #[test]
    fn bodies_at_the_limit() {
        for length in [65_534, 65_535, 65_536] {
            let body = vec![b'x'; length];
            let plain = super::super::writer::write_plain(b"T", &body);
            let framed = super::super::writer::write_framed(b"T", &body);
            for room in [65_534, 65_535, 70_000] {
                check_portions(Mode::Plain, &plain, room, 30_000);
                check_portions(Mode::Framed, &framed, room, 30_000);
            }
        }
    }
}
