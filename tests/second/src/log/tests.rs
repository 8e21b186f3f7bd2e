//! The log on traces that no session would make, as far as those go.

use super::*;
use crate::host::{Buffers, Letter};
use crate::memory::State::{Declined, Forwarded, Waiting};
use crate::session::open;

const GREETING: &[u8] = b"[NOD-1-B1FH$]\r>\r";
const PROPOSALS: &[u8] = b"FB P US THEM YOU 1_US 4\rFB P US THEM YOU 2_US 4\rF>\r";
const TRANSFERS: &[u8] = b"T1\rtext\x1A\rT2\rtext\x1A\r";

/// One piece of a trace.
#[derive(Clone, Copy)]
enum Piece<'a> {
    Us(&'a [u8]),
    Them(&'a [u8]),
}
use Piece::{Them, Us};

/// The log of a called session on a table of two plain messages.
fn log(pieces: &[Piece<'_>]) -> Log {
    let mut buffers = Buffers::new(8, 100);
    for (line, title) in
        [(&b"FB P US THEM YOU 1_US 4"[..], b"T1"), (b"FB P US THEM YOU 2_US 4", b"T2")]
    {
        buffers.add(&Letter::new(Mode::Plain, line, title, b"text"));
    }
    let (_, memory) = open(0, 0, &buffers.lent()).expect("accepted");
    let mut trace = Trace::new();
    for piece in pieces {
        match piece {
            Us(bytes) => trace.given(bytes),
            Them(bytes) => trace.consumed(bytes),
        }
    }
    read(With { we_called: false, partner: 0 }, &memory.table, &memory.stores, &trace)
}

/// The states after our block is out and these pieces followed.
fn states(pieces: &[Piece<'_>]) -> Vec<State> {
    let start = [Us(GREETING), Them(b"[TST-1-F$]\r\nFF\r"), Us(PROPOSALS)];
    log(&[&start, pieces].concat()).states
}

#[test]
fn forwarded_by_acceptance_transfer_and_turn() {
    assert_eq!(states(&[]), [Waiting; 2]);
    assert_eq!(states(&[Them(b"FS ++\r")]), [Waiting; 2]);
    assert_eq!(states(&[Them(b"FS ++\r"), Us(TRANSFERS)]), [Waiting; 2]);
    assert_eq!(states(&[Them(b"FS ++\r"), Us(TRANSFERS), Them(b"FF\r")]), [Forwarded; 2]);
    assert_eq!(states(&[Them(b"FS -=\r")]), [Declined, Waiting]);
    assert_eq!(
        states(&[Them(b"FS -+\r"), Us(&TRANSFERS[9..]), Them(b"FF\r")]),
        [Declined, Forwarded]
    );
}

#[test]
fn no_mark_without_the_whole_transfer_or_a_valid_turn() {
    let last = TRANSFERS.len() - 1;
    let fs = Them(b"FS ++\r");
    assert_eq!(states(&[fs, Us(&TRANSFERS[..last]), Them(b"FF\r")]), [Waiting; 2]);
    assert_eq!(states(&[fs, Us(TRANSFERS), Them(b"FQ\r")]), [Waiting; 2]);
    assert_eq!(states(&[fs, Us(TRANSFERS), Them(b"F>\r")]), [Waiting; 2]);
    assert_eq!(states(&[fs, Us(TRANSFERS), Them(b"FB P A B C 1 1\r")]), [Waiting; 2]);
    assert_eq!(states(&[fs, Us(TRANSFERS), Them(b"FB P A B C 1 1\rF>\r")]), [Forwarded; 2]);
    let wrong = [&TRANSFERS[..3], b"TEXT", &TRANSFERS[7..]].concat();
    assert_eq!(states(&[fs, Us(&wrong), Them(b"FF\r")]), [Waiting; 2]);
}

#[test]
fn order_counts() {
    let (first, last) = TRANSFERS.split_at(TRANSFERS.len() - 1);
    let early = [Them(b"FS ++\r"), Us(first), Them(b"FF\r"), Us(last)];
    assert_eq!(states(&early), [Waiting; 2]);
    let lf = [Them(b"FS ++\r"), Us(first), Them(b"\n"), Us(last), Them(b"FF\r")];
    assert_eq!(states(&lf), [Forwarded; 2]);
    let two = [Them(b"FS ++\r\n"), Us(first), Them(b"\n"), Us(last), Them(b"FF\r")];
    assert_eq!(states(&two), [Waiting; 2]);
}

#[test]
fn what_the_rules_forbid_ends_the_log() {
    let sid = b"[TST-1-F$]\r";
    let offer = [&sid[..], b"FB P A B C 1_A 1\rF>\r"].concat();
    let kept = |pieces: &[Piece<'_>]| log(pieces).kept.len();
    let fs = Us(b"FS +\r");
    assert_eq!(kept(&[Us(GREETING), Them(&offer), fs, Them(b"T\ra\x1A\r")]), 1);
    assert_eq!(kept(&[Us(GREETING), Them(&offer), fs, Them(b"T\ra\x1A")]), 0);
    assert_eq!(kept(&[Us(GREETING), Them(&offer), Us(b"FS -\r"), Them(b"T\ra\x1A\r")]), 0);
    assert_eq!(kept(&[Them(&offer), Us(GREETING), fs, Them(b"T\ra\x1A\r")]), 0);
    assert_eq!(kept(&[Us(b"[NOD]\r>\r"), Them(&offer), fs, Them(b"T\ra\x1A\r")]), 0);
    let no_f = [b"[TST-1-H$]\r", &offer[sid.len()..]].concat();
    assert_eq!(kept(&[Us(GREETING), Them(&no_f), fs, Them(b"T\ra\x1A\r")]), 0);
    let long = [b"T\r", &vec![b'x'; 65_536][..], b"\x1A\r"].concat();
    assert_eq!(kept(&[Us(GREETING), Them(&offer), fs, Them(&long)]), 0);
    let fits = [b"T\r", &long[3..]].concat();
    assert_eq!(kept(&[Us(GREETING), Them(&offer), fs, Them(&fits)]), 1);
}

/// Request Q-1: what we say after a refusal is nothing that the log awaits, wherever
/// the refused byte stood, and what follows it counts for nothing.
#[test]
fn our_reason_ends_the_log() {
    let fs = Them(b"FS ++\r");
    for reason in [&b"*** Protocol error\r"[..], b"*** Checksum error\r", b"*"] {
        let why = Us(reason);
        for wrong in [&b"hello\r"[..], b"F>\r", b"F", b"", b"FB P A B C 1 1\rF> 34\r"] {
            let pieces = [fs, Us(TRANSFERS), Them(wrong), why, Them(b"FF\r")];
            assert_eq!(states(&pieces), [Waiting; 2], "{}", wrong.escape_ascii());
        }
        let declined = [Them(b"FS --\r"), why, Them(b"FF\r")];
        assert_eq!(states(&declined), [Declined; 2]);
        let offer = b"[TST-1-F$]\rFB P A B C 1_A 1\rFB P A B C 2_A 1\rF>\r";
        let owed = [Us(GREETING), Them(offer), Us(b"FS ++\r"), Them(b"T\ra\x1A\r")];
        for cut in [&b""[..], b"T", b"T\ra\x1Ax", b"\x1F"] {
            let more = [Them(cut), why, Them(b"\rT\ra\x1A\r")];
            assert_eq!(log(&[&owed[..], &more].concat()).kept.len(), 1, "{}", cut.escape_ascii());
        }
    }
}

/// "A turn with a wrong checksum is no valid turn. We go on writing the bare form."
#[test]
fn a_block_may_end_with_its_checksum() {
    // 70 + 66 + 32 + 80 + 32 + 65 + 32 + 66 + 32 + 67 + 32 + 49 + 32 + 49 + 13 = 717,
    // and 3 * 256 - 717 = 0x33; each space more takes 0x20.
    let one = &b"FB P A B C 1 1\r"[..];
    let turn = |lines: &[u8], end: &str| {
        let said = [lines, end.as_bytes()].concat();
        states(&[Them(b"FS ++\r"), Us(TRANSFERS), Them(&said)])
    };
    assert_eq!(turn(one, "F> 33\r"), [Forwarded; 2]);
    assert_eq!(turn(one, "F> 34\r"), [Waiting; 2]);
    assert_eq!(turn(one, "F> 33"), [Waiting; 2]);
    assert_eq!(turn(one, "F> 33  \r"), [Forwarded; 2]);
    assert_eq!(turn(one, "F>  33\r"), [Waiting; 2]);
    assert_eq!(turn(one, "F> 333\r"), [Waiting; 2]);
    assert_eq!(turn(b"FB P A B  C 1 1\r", "F> 13\r"), [Forwarded; 2]);
    assert_eq!(turn(b"FB P A B  C 1 1\r", "F> 33\r"), [Waiting; 2]);
    assert_eq!(turn(b"FB P A B C 1 1 \r", "F> 13\r"), [Forwarded; 2]);
    assert_eq!(turn(b"; x\r\nFB P A B C 1 1\r\n; y\r", "f> 33\r"), [Forwarded; 2]);
    assert_eq!(turn(b"", "F> 00\r"), [Waiting; 2]);
    assert_eq!(turn(&one.repeat(2), "F> 66\r"), [Forwarded; 2]);
    assert_eq!(turn(&one.repeat(6), "F> 32\r"), [Waiting; 2]);
    // What the partner owes after a block with a wrong checksum is never kept.
    let kept = |end: &[u8]| {
        let offer = [b"[TST-1-F$]\r", one, end].concat();
        let pieces = [Us(GREETING), Them(&offer), Us(b"FS +\r"), Them(b"T\ra\x1A\r")];
        log(&pieces).kept.len()
    };
    assert_eq!(kept(b"F> 33\r"), 1);
    assert_eq!(kept(b"F> 32\r"), 0);
}

/// The level in force is found from the two SIDs, and is the partner's to use alone.
#[test]
fn the_level_follows_the_two_sids() {
    let after = |sid: &[u8], ours: &[u8]| {
        let sid = [sid, b"FA P A B C 1 1\rF>\r"].concat();
        let block = Them(b"\x01\x04H\x000\x00\x02\x01A\x04\xBF");
        log(&[Us(GREETING), Them(&sid), Us(ours), block]).kept.len()
    };
    assert_eq!(after(b"[TST-1-B1F$]\r", b"FS +\r"), 1);
    assert_eq!(after(b"[TST-1-B1F$]\r", b"FS Y\r"), 0);
    assert_eq!(after(b"[TST-1-BF$]\r", b"FS +\r"), 1);
}

/// A block of ours that ends with a checksum, though a right one, is forbidden.
#[test]
fn ours_is_the_bare_form() {
    let lines = &PROPOSALS[..PROPOSALS.len() - 3];
    let sum: usize = lines.iter().map(|&byte| usize::from(byte)).sum();
    let said = [lines, format!("F> {:02X}\r", (256 - sum % 256) % 256).as_bytes()].concat();
    let session = |ours: &[u8]| {
        log(&[
            Us(GREETING),
            Them(b"[TST-1-F$]\rFF\r"),
            Us(ours),
            Them(b"FS ++\r"),
            Us(TRANSFERS),
            Them(b"FF\r"),
        ])
        .states
    };
    assert_eq!(session(PROPOSALS), [Forwarded; 2]);
    assert_eq!(session(&said), [Waiting; 2]);
}

#[test]
fn a_line_has_256_bytes_at_most() {
    for (spaces, whole) in [(254, true), (255, false)] {
        let ff = [b"FF", &vec![b' '; spaces][..], b"\r"].concat();
        let expected = if whole { Forwarded } else { Waiting };
        assert_eq!(states(&[Them(b"FS ++\r"), Us(TRANSFERS), Them(&ff)]), [expected; 2]);
    }
}
