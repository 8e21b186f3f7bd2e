//! Writes transfers, at once or in any portions. Nothing is judged here.

use super::{checksum, sum, BLOCK, BLOCK_BYTES, END, HEADER};
use crate::field::BODY_END;
use crate::line::CR;
use crate::sid::Mode;

/// What stands between heading and blocks: "We write offset `0`".
const OFFSET: &[u8] = b"\x000\x00";

/// "Plain: title, CR, body, 0x1A, CR."
pub fn write_plain(title: &[u8], body: &[u8]) -> Vec<u8> {
    [title, &[CR], body, &[BODY_END, CR]].concat()
}

/// "Framed: 01, L, heading, 00, offset digits, 00; blocks 02, n, data; 04,
/// checksum. [...] We write offset `0`, blocks of 256 and a shorter last one;
/// an empty body has no block."
pub fn write_framed(heading: &[u8], body: &[u8]) -> Vec<u8> {
    let mut out = vec![HEADER, header_length(heading)];
    out.extend_from_slice(heading);
    out.extend_from_slice(OFFSET);
    for block in body.chunks(BLOCK_BYTES) {
        out.extend_from_slice(&block_head(block));
        out.extend_from_slice(block);
    }
    out.extend_from_slice(&[END, checksum(body)]);
    out
}

/// "L = heading + offset + 2", with our one offset digit.
fn header_length(heading: &[u8]) -> u8 {
    (heading.len() + 3) as u8
}

/// "02, n": 256 becomes 00.
fn block_head(block: &[u8]) -> [u8; 2] {
    [BLOCK, block.len() as u8]
}

/// A stretch of a transfer: lent by the caller, or two bytes of ours.
#[derive(Clone, Copy, Debug)]
enum Piece<'a> {
    Lent(&'a [u8]),
    Own([u8; 2]),
}

impl Piece<'_> {
    fn bytes(&self) -> &[u8] {
        match self {
            Piece::Lent(bytes) => bytes,
            Piece::Own(bytes) => bytes,
        }
    }
}

/// Which piece comes next.
#[derive(Clone, Copy, Debug)]
enum Stage {
    // Plain.
    Title,
    TitleEnd,
    Body,
    BodyEnd,
    // Framed.
    Header,
    Heading,
    Offset,
    BlockOrEnd,
    Data,
    // Both.
    Done,
}

/// A transfer that goes out in portions, as the link takes them.
#[derive(Debug)]
pub struct Writer<'a> {
    heading: &'a [u8],
    /// The body that no piece has taken yet.
    body: &'a [u8],
    sum: u8,
    stage: Stage,
    piece: Piece<'a>,
    /// Bytes of the piece that are out already.
    out: usize,
}

impl<'a> Writer<'a> {
    pub fn new(mode: Mode, heading: &'a [u8], body: &'a [u8]) -> Writer<'a> {
        Writer {
            heading,
            body,
            sum: 0,
            stage: match mode {
                Mode::Plain => Stage::Title,
                Mode::Framed => Stage::Header,
            },
            piece: Piece::Lent(&[]),
            out: 0,
        }
    }

    /// Writes as many bytes as fit and says how many: 0 once all are out.
    pub fn give(&mut self, room: &mut [u8]) -> usize {
        let mut given = 0;
        while given < room.len() {
            let waiting = &self.piece.bytes()[self.out..];
            if waiting.is_empty() {
                let piece = match self.next_piece() {
                    Some(piece) => piece,
                    None => {
                        break;
                    }
                };
                self.piece = piece;
                self.out = 0;
                continue;
            }
            let count = waiting.len().min(room.len() - given);
            room[given..given + count].copy_from_slice(&waiting[..count]);
            given += count;
            self.out += count;
        }
        given
    }

    fn next_piece(&mut self) -> Option<Piece<'a>> {
        let (piece, next) = match self.stage {
            Stage::Title => (Piece::Lent(self.heading), Stage::TitleEnd),
            Stage::TitleEnd => (Piece::Lent(&[CR]), Stage::Body),
            Stage::Body => (Piece::Lent(self.body), Stage::BodyEnd),
            Stage::BodyEnd => (Piece::Own([BODY_END, CR]), Stage::Done),
            Stage::Header => {
                let length = header_length(self.heading);
                (Piece::Own([HEADER, length]), Stage::Heading)
            }
            Stage::Heading => (Piece::Lent(self.heading), Stage::Offset),
            Stage::Offset => (Piece::Lent(OFFSET), Stage::BlockOrEnd),
            Stage::BlockOrEnd if self.body.is_empty() => {
                (Piece::Own([END, self.sum.wrapping_neg()]), Stage::Done)
            }
            Stage::BlockOrEnd => (Piece::Own(block_head(self.block())), Stage::Data),
            Stage::Data => {
                let block = self.block();
                self.sum = self.sum.wrapping_add(sum(block));
                self.body = &self.body[block.len()..];
                (Piece::Lent(block), Stage::BlockOrEnd)
            }
            Stage::Done => return None,
        };
        self.stage = next;
        Some(piece)
    }

    /// The next block's data.
    fn block(&self) -> &'a [u8] {
        &self.body[..self.body.len().min(BLOCK_BYTES)]
    }
}

#[cfg(test)]
mod tests {
    use super::super::whole::{read_framed, read_plain};
    use super::super::Outcome;
    use super::*;

    /// Any body: every byte value, but 0x1A.
    fn body(length: usize) -> Vec<u8> {
        (0..=255).filter(|&b| b != BODY_END).cycle().take(length).collect()
    }

    fn written(mode: Mode, heading: &[u8], body: &[u8]) -> Vec<u8> {
        match mode {
            Mode::Plain => write_plain(heading, body),
            Mode::Framed => write_framed(heading, body),
        }
    }

    #[test]
    fn examples_of_01() {
        let example = [0x01, 0x05, 0x48, 0x49, 0, 0x30, 0, 0x02, 0x02, 0x41, 0x42, 0x04, 0x7D];
        assert_eq!(write_framed(b"HI", b"AB"), example);
        assert!(write_framed(b"HI", b"").ends_with(&[0x30, 0, 0x04, 0]));
        assert_eq!(write_plain(b"HI", b"AB"), b"HI\rAB\x1A\r");
    }

    #[test]
    fn blocks_of_256_and_a_shorter_last_one() {
        for (length, heads) in [
            (0, &[][..]),
            (1, &[1]),
            (255, &[255]),
            (256, &[0]),
            (257, &[0, 1]),
            (512, &[0, 0]),
            (513, &[0, 0, 1]),
        ] {
            let bytes = write_framed(b"HI", &body(length));
            let blocks = &bytes[7..bytes.len() - 2];
            let found: Vec<u8> = blocks.chunks(258).map(|block| block[1]).collect();
            assert_eq!(found, heads);
            assert!(blocks.chunks(258).all(|block| block[0] == BLOCK));
        }
    }

    #[test]
    fn what_we_write_reads_back() {
        for length in [0, 1, 255, 256, 257, 511, 512, 513, 65_535] {
            let body = body(length);
            for heading in [1, 79, 80].map(|length| vec![0xFC; length]) {
                let plain = write_plain(&heading, &body);
                let framed = write_framed(&heading, &body);
                for reading in [read_plain(&plain, length), read_framed(&framed, length)] {
                    assert_eq!(reading.outcome, Outcome::Whole);
                    assert_eq!(reading.heading, heading);
                    assert_eq!(reading.body, body);
                }
            }
        }
    }

    #[test]
    fn portions_make_up_the_same_bytes() {
        for mode in [Mode::Plain, Mode::Framed] {
            for length in [0, 1, 255, 256, 257, 513] {
                for size in [1, 2, 5, 255, 256, 257, 1000] {
                    let body = body(length);
                    let mut writer = Writer::new(mode, b"HI", &body);
                    let mut room = vec![0; size];
                    let mut out = Vec::new();
                    loop {
                        match writer.give(&mut room) {
                            0 => break,
                            count => out.extend_from_slice(&room[..count]),
                        }
                    }
                    assert_eq!(out, written(mode, b"HI", &body));
                }
            }
        }
    }
}
