//! Reads a transfer from all its bytes so far, with no state.

use super::{Outcome, BLOCK, BLOCK_BYTES, END, HEADER, OFFSET_DIGITS};
use crate::field::{is_heading_byte, BODY_END, BODY_MAX, HEADING_MAX};
use crate::line::CR;
use crate::refusal::Refusal;

/// What the bytes so far give.
#[derive(Clone, Debug, PartialEq, Eq)]
pub struct Reading<'a> {
    pub outcome: Outcome,
    /// Bytes read, the refused one included.
    pub consumed: usize,
    pub heading: &'a [u8],
    pub body: Vec<u8>,
}

impl<'a> Reading<'a> {
    fn new(heading: &'a [u8]) -> Reading<'a> {
        Reading { outcome: Outcome::More, consumed: 0, heading, body: Vec::new() }
    }

    fn ended(mut self, outcome: Outcome, consumed: usize) -> Reading<'a> {
        self.outcome = outcome;
        self.consumed = consumed;
        self
    }

    fn more(self, consumed: usize) -> Reading<'a> {
        self.ended(Outcome::More, consumed)
    }

    /// The byte at place `at` is refused; it "is the last one counted".
    fn refused(self, refusal: Refusal, at: usize) -> Reading<'a> {
        self.ended(Outcome::Refused(refusal), at + 1)
    }
}

/// "Plain: title, CR, body, 0x1A, CR. Spaces between the last two are skipped
/// on reading."
pub fn read_plain(bytes: &[u8], room: usize) -> Reading<'_> {
    let title = heading_run(bytes);
    let reading = Reading::new(&bytes[..title]);
    match bytes.get(title) {
        None => return reading.more(title),
        // DECISIONS 19: an empty title gets 8 at its CR.
        Some(&CR) if title > 0 => {}
        Some(_) => return reading.refused(Refusal::WrongTransfer, title),
    }
    read_plain_body(bytes, title + 1, room.min(BODY_MAX), reading)
}

/// The length of the heading that the bytes begin with. DECISIONS 19: one byte
/// over the limit is no longer heading, so the search stops there.
fn heading_run(bytes: &[u8]) -> usize {
    let most = &bytes[..bytes.len().min(HEADING_MAX)];
    let end = most.iter().position(|&byte| !is_heading_byte(byte));
    end.unwrap_or(most.len())
}

/// The body from `start` on, and what closes it. Its first byte is like any
/// other: "A body may begin with LF."
fn read_plain_body<'a>(
    bytes: &'a [u8],
    start: usize,
    room: usize,
    mut reading: Reading<'a>,
) -> Reading<'a> {
    let rest = &bytes[start..];
    let mark = rest.iter().position(|&byte| byte == BODY_END);
    let body = &rest[..mark.unwrap_or(rest.len())];
    reading.body = body[..body.len().min(room)].to_vec();
    if body.len() > room {
        return reading.refused(Refusal::NoRoom, start + room);
    }
    let mark = match mark {
        Some(mark) => mark,
        None => return reading.more(bytes.len()),
    };
    let after = start + mark + 1;
    match bytes[after..].iter().position(|&byte| byte != b' ') {
        None => reading.more(bytes.len()),
        Some(spaces) if bytes[after + spaces] == CR => {
            reading.ended(Outcome::Whole, after + spaces + 1)
        }
        Some(spaces) => reading.refused(Refusal::WrongTransfer, after + spaces),
    }
}

/// "Framed: 01, L, heading, 00, offset digits, 00; blocks 02, n, data; 04,
/// checksum."
pub fn read_framed(bytes: &[u8], room: usize) -> Reading<'_> {
    let nothing = Reading::new(&[]);
    match bytes {
        [] => return nothing.more(0),
        [HEADER] => return nothing.more(1),
        [HEADER, ..] => {}
        _ => return nothing.refused(Refusal::WrongTransfer, 0),
    }
    let length = usize::from(bytes[1]);
    let header = &bytes[2..bytes.len().min(2 + length)];
    // "A transfer byte is refused with 8 as soon as no valid transfer begins
    // with the bytes so far": so try each header of this length, and go as far
    // as one of them goes.
    let fits =
        match headers(length).map(|(heading, offset)| header_fit(header, heading, offset)).max() {
            Some(fits) => fits,
            None => return nothing.refused(Refusal::WrongTransfer, 1),
        };
    let heading = header[..fits].split(|&byte| byte == 0).next();
    let reading = Reading::new(heading.unwrap_or_default());
    if fits < header.len() {
        return reading.refused(Refusal::WrongTransfer, 2 + fits);
    }
    if fits < length {
        return reading.more(bytes.len());
    }
    read_blocks(bytes, 2 + length, room.min(BODY_MAX), reading)
}

/// "L = heading + offset + 2": the lengths of heading and offset that make `L`.
fn headers(length: usize) -> impl Iterator<Item = (usize, usize)> {
    (1..=OFFSET_DIGITS)
        .filter_map(move |offset| Some((length.checked_sub(offset + 2)?, offset)))
        .filter(|(heading, _)| (1..=HEADING_MAX).contains(heading))
}

/// How many of the bytes begin a header whose heading and offset have these
/// lengths. "Offset has 1 to 6 digits, value 0": all of them `0`.
fn header_fit(bytes: &[u8], heading: usize, offset: usize) -> usize {
    let fits = |(place, &byte): (usize, &u8)| match place {
        _ if place < heading => is_heading_byte(byte),
        _ if place == heading => byte == 0,
        _ if place <= heading + offset => byte == b'0',
        _ => byte == 0,
    };
    bytes.iter().enumerate().take_while(|&at| fits(at)).count()
}

/// Blocks from place `at` on, until the checksum.
fn read_blocks<'a>(
    bytes: &'a [u8],
    mut at: usize,
    room: usize,
    mut reading: Reading<'a>,
) -> Reading<'a> {
    while let [BLOCK, n, rest @ ..] = &bytes[at..] {
        let n = if *n == 0 { BLOCK_BYTES } else { usize::from(*n) };
        let data = &rest[..n.min(rest.len())];
        // DECISIONS 20: the block's length is taken; 10 comes at the data byte
        // without room.
        let free = room - reading.body.len();
        reading.body.extend(&data[..data.len().min(free)]);
        if data.len() > free {
            return reading.refused(Refusal::NoRoom, at + 2 + free);
        }
        if data.len() < n {
            return reading.more(bytes.len());
        }
        at += 2 + n;
    }
    read_end(bytes, at, reading)
}

/// What stands where no whole block head does: the end, or nothing yet, or a
/// wrong mark.
fn read_end<'a>(bytes: &'a [u8], at: usize, reading: Reading<'a>) -> Reading<'a> {
    match bytes[at..] {
        [] | [BLOCK] | [END] => reading.more(bytes.len()),
        [END, check, ..] => {
            let data: u64 = reading.body.iter().map(|&byte| u64::from(byte)).sum();
            if (data + u64::from(check)) % 256 == 0 {
                reading.ended(Outcome::Whole, at + 2)
            } else {
                reading.refused(Refusal::WrongChecksum, at + 1)
            }
        }
        _ => reading.refused(Refusal::WrongTransfer, at),
    }
}

#[cfg(test)]
mod tests {
    use super::*;
    use Outcome::{More, Refused, Whole};

    const WRONG: Outcome = Refused(Refusal::WrongTransfer);

    /// Outcome, bytes consumed, heading and body.
    type Parts<'a> = (Outcome, usize, &'a [u8], Vec<u8>);

    fn plain(bytes: &[u8], room: usize) -> Parts<'_> {
        let r = read_plain(bytes, room);
        (r.outcome, r.consumed, r.heading, r.body)
    }

    fn framed(bytes: &[u8], room: usize) -> Parts<'_> {
        let r = read_framed(bytes, room);
        (r.outcome, r.consumed, r.heading, r.body)
    }

    /// A header with this L, heading length and offset digits.
    fn header(length: u8, heading: usize, offset: usize) -> Vec<u8> {
        let text = [vec![b'x'; heading], vec![b'0'; offset]].join(&0);
        [&[HEADER, length], &text[..], &[0]].concat()
    }

    #[test]
    fn framed_examples_of_01() {
        let bytes = b"\x01\x05HI\x000\x00\x02\x02AB\x04\x7D";
        assert_eq!(framed(bytes, 9), (Whole, 13, &b"HI"[..], b"AB".to_vec()));
        let empty = b"\x01\x05HI\x000\x00\x04\x00";
        assert_eq!(framed(empty, 0), (Whole, 9, &b"HI"[..], vec![]));
    }

    #[test]
    fn plain_skips_spaces_before_its_last_cr_only() {
        let whole = (Whole, 9, &b"HI"[..], b"AB".to_vec());
        assert_eq!(plain(b"HI\rAB\x1A  \r", 9), whole);
        assert_eq!(plain(b"HI\rAB\x1A  \rFF\r", 9), whole);
        assert_eq!(plain(b"HI\rAB\x1A \n\r", 9), (WRONG, 8, &b"HI"[..], b"AB".to_vec()));
        assert_eq!(plain(b"HI\r\nA\x1A\r", 9).3, b"\nA");
    }

    #[test]
    fn plain_title_has_1_to_80_bytes() {
        assert_eq!(plain(b"\r", 0), (WRONG, 1, &b""[..], vec![]));
        assert_eq!(plain(b"a\tb", 0), (WRONG, 2, &b"a"[..], vec![]));
        for (length, outcome) in [(1, Whole), (79, Whole), (80, Whole), (81, WRONG)] {
            let bytes = [&vec![0xE9; length][..], b"\r\x1A\r"].concat();
            assert_eq!(plain(&bytes, 0).0, outcome);
        }
        // The 80th byte may be followed by nothing yet; the 81st is refused.
        assert_eq!(plain(&[b'x'; 80], 0).0, More);
        assert_eq!(plain(&[b'x'; 81], 0), (WRONG, 81, &[b'x'; 80][..], vec![]));
    }

    #[test]
    fn body_byte_without_room_is_refused() {
        let full = (Refused(Refusal::NoRoom), 4, &b"T"[..], b"A".to_vec());
        assert_eq!(plain(b"T\rAB\x1A\r", 1), full);
        assert_eq!(plain(b"T\rAB\x1A\r", 2).0, Whole);
        let bytes = b"\x01\x04T\x000\x00\x02\x02AB\x04\x7D";
        let full = (Refused(Refusal::NoRoom), 10, &b"T"[..], b"A".to_vec());
        assert_eq!(framed(bytes, 1), full);
        assert_eq!(framed(bytes, 2).0, Whole);
    }

    #[test]
    fn body_has_at_most_65535_bytes_in_any_store() {
        for (length, outcome) in
            [(65_534, Whole), (65_535, Whole), (65_536, Refused(Refusal::NoRoom))]
        {
            let bytes = [b"T\r", &vec![b'x'; length][..], b"\x1A\r"].concat();
            let reading = read_plain(&bytes, usize::MAX);
            assert_eq!(reading.outcome, outcome);
            assert_eq!(reading.body.len(), length.min(65_535));
        }
    }

    #[test]
    fn framed_header_length_is_4_to_88() {
        for length in 0..=255 {
            let outcome = framed(&[HEADER, length], 0).0;
            let expected = if (4..=88).contains(&length) { More } else { WRONG };
            assert_eq!(outcome, expected, "L = {length}");
        }
    }

    #[test]
    fn framed_heading_and_offset_make_up_the_length() {
        for heading in 0..90 {
            for offset in 0..9 {
                let length = (heading + offset + 2) as u8;
                let valid = (1..=80).contains(&heading) && (1..=6).contains(&offset);
                let bytes = [&header(length, heading, offset)[..], &[END, 0]].concat();
                assert_eq!(framed(&bytes, 0).0 == Whole, valid, "{heading} {offset}");
                let one_less = [&header(length - 1, heading, offset)[..], &[END, 0]].concat();
                assert_eq!(framed(&one_less, 0).0, WRONG);
            }
        }
    }

    #[test]
    fn framed_bytes_are_refused_as_soon_as_nothing_valid_begins_so() {
        // 00 too early: L = 10 leaves at least two bytes to the heading.
        assert_eq!(framed(b"\x01\x0AH\x00", 0), (WRONG, 4, &b"H"[..], vec![]));
        // A heading byte too many: L = 4 leaves one.
        assert_eq!(framed(b"\x01\x04HI", 0), (WRONG, 4, &b"H"[..], vec![]));
        // An offset that is not 0, and one that is too short or too long.
        assert_eq!(framed(b"\x01\x05HI\x001", 0), (WRONG, 6, &b"HI"[..], vec![]));
        assert_eq!(framed(b"\x01\x06HI\x000\x00", 0), (WRONG, 7, &b"HI"[..], vec![]));
        assert_eq!(framed(b"\x01\x05HI\x0000", 0), (WRONG, 7, &b"HI"[..], vec![]));
        // A wrong mark first, and one after the header.
        assert_eq!(framed(b"\x02", 0), (WRONG, 1, &b""[..], vec![]));
        assert_eq!(framed(b"\x01\x04H\x000\x00\x03", 0), (WRONG, 7, &b"H"[..], vec![]));
    }

    #[test]
    fn block_length_00_means_256() {
        for length in [1, 255, 256] {
            let data = vec![1; length];
            let block = [&[BLOCK, length as u8], &data[..], &[END, length.wrapping_neg() as u8]];
            let bytes = [header(4, 1, 1), block.concat()].concat();
            assert_eq!(framed(&bytes, 300), (Whole, bytes.len(), &b"x"[..], data));
        }
    }

    #[test]
    fn wrong_checksum_gets_9() {
        let bytes = b"\x01\x05HI\x000\x00\x02\x02AB\x04\x7E";
        let wrong = Refused(Refusal::WrongChecksum);
        assert_eq!(framed(bytes, 9), (wrong, 13, &b"HI"[..], b"AB".to_vec()));
    }
}
