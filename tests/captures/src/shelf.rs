//! What our node needs to have on its shelf to say what the stand-in said: the
//! messages that it proposed, and the BIDs that it declined.

use crate::capture::{trimmed, Capture};
use second::host::{Buffers, Letter};
use second::proposal::{self, TurnLine};
use second::sid::{self, Mode};
use second::transfer::whole::{read_framed, read_plain};
use second::transfer::Outcome;

/// Places and bytes of the inbox: more than any capture brings.
const PLACES: usize = 8;
const ROOM: usize = 20_000;

/// Goes behind a body of which the capture has a part only, so that more would
/// have followed.
const NOT_SENT: [u8; 300] = [b'?'; 300];

#[derive(Debug, Default)]
pub struct Shelf {
    letters: Vec<Letter>,
    known: Vec<Vec<u8>>,
    /// The stand-in dropped the link inside its last transfer.
    pub dropped: bool,
}

impl Shelf {
    pub fn of(capture: &Capture) -> Shelf {
        let mode = mode(capture);
        let mut shelf = Shelf::default();
        // Where the letters of the last block start.
        let mut block = 0;
        let mut before = &[][..];
        for said in &capture.script {
            if said.ours {
                let rest = shelf.transfers(&said.bytes, mode, before, block);
                block = shelf.letters.len();
                shelf.propose(rest, mode);
                shelf.decline(before, rest);
            }
            before = &said.bytes;
        }
        shelf
    }

    pub fn buffers(&self) -> Buffers {
        let mut buffers = Buffers::new(PLACES, ROOM);
        self.letters.iter().for_each(|letter| buffers.add(letter));
        self.known.iter().for_each(|bid| buffers.know(bid));
        buffers
    }

    /// A letter for each valid proposal. One that was proposed before, in this
    /// session, isn't another.
    fn propose(&mut self, bytes: &[u8], mode: Mode) {
        for line in bytes.split(|&byte| byte == b'\r') {
            if let Ok(TurnLine::Proposal(new)) = proposal::read(line, mode) {
                if self.letters.iter().all(|letter| letter.envelope.bid != new.bid) {
                    self.letters.push(Letter::new(mode, line, b"declined", b""));
                }
            }
        }
    }

    /// Headings and bodies of the letters that an FS line accepts; gives back what
    /// follows the transfers.
    fn transfers<'a>(
        &mut self,
        bytes: &'a [u8],
        mode: Mode,
        answer: &[u8],
        block: usize,
    ) -> &'a [u8] {
        let mut rest = bytes;
        let signs = signs(answer).unwrap_or_default();
        let accepted = signs.iter().zip(self.letters.iter_mut().skip(block));
        for (_, letter) in accepted.filter(|(sign, _)| b"+YHA".contains(sign)) {
            let reading = match mode {
                Mode::Plain => read_plain(rest, usize::MAX),
                Mode::Framed => read_framed(rest, usize::MAX),
            };
            if let Outcome::Refused(_) = reading.outcome {
                return &[];
            }
            letter.heading = reading.heading.to_vec();
            letter.body = reading.body;
            if reading.outcome == Outcome::More {
                letter.body.extend(NOT_SENT);
                self.dropped = true;
                return &[];
            }
            rest = &rest[reading.consumed..];
        }
        rest
    }

    /// Our FS line declined some of these proposals: their BIDs are known.
    fn decline(&mut self, proposals: &[u8], ours: &[u8]) {
        let signs = match signs(ours) {
            Some(signs) => signs,
            None => return,
        };
        let lines = proposals.split(|&byte| byte == b'\r').map(trimmed);
        let proposals = lines.filter(|line| line.starts_with(b"FA ") || line.starts_with(b"FB "));
        for (line, sign) in proposals.zip(signs) {
            let bid = line.split(|&byte| byte == b' ').nth(5);
            self.known.extend(bid.filter(|_| sign == b'-').map(<[u8]>::to_vec));
        }
    }
}

/// How the stand-in and the mailbox spoke.
fn mode(capture: &Capture) -> Mode {
    let of = |ours| sid::read(&capture.sid(ours)?).map(|features| features.mode());
    match (of(true), of(false)) {
        (Some(Mode::Framed), Some(Mode::Framed)) => Mode::Framed,
        _ => Mode::Plain,
    }
}

/// The signs of an FS line, if the bytes begin with one; offsets left out.
fn signs(bytes: &[u8]) -> Option<Vec<u8>> {
    let line = bytes.strip_prefix(b"FS ")?.split(|&byte| byte == b'\r').next()?;
    Some(line.iter().copied().filter(|byte| !byte.is_ascii_digit()).collect())
}

#[cfg(test)]
mod tests {
    use super::*;
    use crate::capture::Said;

    fn capture(script: &[(bool, &[u8])]) -> Capture {
        let said = |&(ours, bytes): &(bool, &[u8])| Said { ours, bytes: bytes.to_vec() };
        Capture { name: String::new(), script: script.iter().map(said).collect() }
    }

    #[test]
    fn letters_and_known_bids_are_those_of_the_stand_in() {
        let shelf = Shelf::of(&capture(&[
            (false, b"[A-F]\r>\r"),
            (true, b"[B-F]\rFB P A B C 1_A 4\rFB P A B C 2_A 4\rFB P A B C 3_A 9\rF>\r"),
            (false, b"FS +-+\r"),
            (true, b"one\rtext\x1A\rthree\rtex"),
            (false, b"FB P A B C 4_A 4\rFB P A B C 5_A 4\rF> 00\r"),
            (true, b"FS +-\r"),
        ]));
        let letters: Vec<_> = shelf.letters.iter().map(|letter| &letter.heading[..]).collect();
        assert_eq!(letters, [&b"one"[..], b"declined", b"three"]);
        assert_eq!(shelf.letters[0].body, b"text");
        assert_eq!(shelf.letters[2].body.len(), 303);
        assert!(shelf.dropped);
        assert_eq!(shelf.known, [b"5_A"]);
    }
}
