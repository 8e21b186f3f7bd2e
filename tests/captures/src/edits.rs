//! Two edits of what a mailbox said, each for a point where the captures leave
//! what our node takes, so that the rest of the session is tried too; and one that a
//! checksum must find.

use crate::capture::{replaced, Capture, Said};
use second::sid::{self, Feature};

/// An edit, with what the outcome file calls it.
pub type Edit = (&'static str, fn(&Capture) -> Option<Capture>);

pub const ALL: [Edit; 2] = [("B out of its SID", plain), ("offset 000000", zeros)];

/// The stand-in had no B in its SID, so the mailbox spoke plain; our node has B.
/// So B goes from the mailbox's SID, which is then what `fbbcomp = NO` makes it.
fn plain(capture: &Capture) -> Option<Capture> {
    let has_b = |ours| {
        let features = sid::read(&capture.sid(ours)?)?;
        Some(features.has(Feature::FRAMED))
    };
    if has_b(true)? || !has_b(false)? {
        return None;
    }
    let sid = capture.sid(false)?;
    let b = sid.iter().rposition(|&byte| byte == b'B')?;
    let digit = sid.get(b + 1).map_or(false, u8::is_ascii_digit);
    let without = [&sid[..b], &sid[b + 1 + usize::from(digit)..]].concat();
    Some(changed(capture, |bytes| replaced(bytes, &sid, &without)))
}

/// The link changes one letter of a BID: the last of the first proposal in each of the
/// mailbox's turns.
pub fn letter(capture: &Capture) -> Option<Capture> {
    let edited = changed(capture, |bytes| {
        let lines = bytes.split_inclusive(|&byte| byte == b'\r');
        let starts = lines.scan(0, |at, line| Some(std::mem::replace(at, *at + line.len())));
        let starts: Vec<usize> = starts.map(|at| at + lf(bytes, at)).collect();
        let line = *starts.iter().find(|&&at| is_proposal(&bytes[at..]))?;
        let size = line + bytes[line..].iter().position(|&byte| byte == b'\r')?;
        let bid_end = bytes[..size].iter().rposition(|&byte| byte == b' ')?;
        let mut bytes = bytes.to_vec();
        bytes[bid_end - 1] ^= 1;
        Some(bytes)
    });
    (edited.script != capture.script).then_some(edited)
}

/// Whether an LF stands there.
fn lf(bytes: &[u8], at: usize) -> usize {
    usize::from(bytes.get(at) == Some(&b'\n'))
}

fn is_proposal(line: &[u8]) -> bool {
    line.starts_with(b"FA ") || line.starts_with(b"FB ")
}

/// The mailbox pads the offset of a framed header with blanks; here with zeros.
fn zeros(capture: &Capture) -> Option<Capture> {
    let edited = changed(capture, |bytes| {
        let mut bytes = bytes.to_vec();
        let blanks = |bytes: &[u8]| bytes.windows(8).position(|window| window == b"\0     0\0");
        while let Some(at) = blanks(&bytes) {
            bytes[at + 1..at + 6].fill(b'0');
        }
        bytes.starts_with(b"\x01").then_some(bytes)
    });
    (edited.script != capture.script).then_some(edited)
}

/// The capture with what the mailbox said changed where `change` has something.
fn changed(capture: &Capture, change: impl Fn(&[u8]) -> Option<Vec<u8>>) -> Capture {
    let edit = |said: &Said| match change(&said.bytes) {
        Some(bytes) if !said.ours => Said { ours: false, bytes },
        _ => said.clone(),
    };
    Capture { name: capture.name.clone(), script: capture.script.iter().map(edit).collect() }
}

#[cfg(test)]
mod tests {
    use super::*;

    fn capture(peer: &[u8], ours: &[u8]) -> Capture {
        let said = |ours, bytes: &[u8]| Said { ours, bytes: bytes.to_vec() };
        Capture { name: String::new(), script: vec![said(false, peer), said(true, ours)] }
    }

    #[test]
    fn b_goes_where_the_stand_in_had_none() {
        let edited = plain(&capture(b"[F-7-AB1F$]\rhi\r>\r", b"[NOD-1-FH$]\r")).unwrap();
        assert_eq!(edited.bytes(false), b"[F-7-AF$]\rhi\r>\r");
        assert!(plain(&capture(b"[F-7-AB1F$]\r", b"[NOD-1-B1FH$]\r")).is_none());
        assert!(plain(&capture(b"[F-7-AF$]\r", b"[NOD-1-FH$]\r")).is_none());
    }

    #[test]
    fn a_letter_changes_in_each_turn() {
        let edited = |peer| letter(&capture(peer, b"")).map(|c| c.bytes(false));
        assert_eq!(
            edited(b"FF\r\nFB P A B C 1_A 5\r\nFB P A B C 2_A 5\r\nF> 1A\r"),
            Some(b"FF\r\nFB P A B C 1_@ 5\r\nFB P A B C 2_A 5\r\nF> 1A\r".to_vec())
        );
        assert_eq!(edited(b"FA P A B C 1_B 5\r"), Some(b"FA P A B C 1_C 5\r".to_vec()));
        assert_eq!(edited(b"FF\r"), None);
        assert_eq!(edited(b"XFB P A B C 1_A 5\r"), None);
    }

    #[test]
    fn the_offset_goes_in_headers_only() {
        let edited = |peer| zeros(&capture(peer, b"")).map(|c| c.bytes(false));
        assert_eq!(
            edited(b"\x01\x09A\0     0\0\x04\0"),
            Some(b"\x01\x09A\x00000000\0\x04\0".to_vec())
        );
        assert_eq!(edited(b"\x01\x04A\x000\0\x04\0"), None);
        assert_eq!(edited(b"A\0     0\0"), None);
    }
}
