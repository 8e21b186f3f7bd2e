//! Request Q-5's own sessions: blocks that end with `F> HH`, right and wrong.

use super::{both_roles, partner, us, Example};
use crate::host::Letter;
use crate::memory::State;
use crate::proposal;
use crate::refusal::{LINE_NOT_ALLOWED, PROPOSAL_COUNT, WRONG_BLOCK_SUM};
use crate::sid::Mode;

pub(super) fn all() -> Vec<Example> {
    let sessions = vec![right(), as_received(), wrong(), one_letter(), none(), three_digits()];
    [both_roles(sessions), vec![linfbb()]].concat()
}

const OURS: &[u8] = b"FB P F6FBB FC1GHV FC1MVP 1_F6FBB 2";
/// Its bytes and its CR sum to 878; with 0x92 that is 1,024.
const THEIRS: &str = "FB P A B C 1_A 2\r";
const THEIR_END: &str = "F> 92\r";

/// Our record goes to a partner that then says this turn; after it comes what
/// follows.
fn after_ours(name: &'static str, turn: impl AsRef<[u8]>) -> Example {
    let script = vec![
        partner("[TST-1-F$]\r>\r"),
        us([b"[NOD-1-B1FH$]\r", OURS, b"\rF>\r"].concat()),
        partner("FS +\r"),
        us("HI\rAB\x1A\r"),
        partner(turn),
    ];
    let letter = Letter::new(Mode::Plain, OURS, b"HI", b"AB");
    Example::new(name, true, script).letters(vec![letter], &[State::Waiting])
}

/// The turn is valid: our record is forwarded at its CR, and their message comes.
fn taken(example: Example) -> Example {
    let more = [us("FS +\r"), partner("HI\rAB\x1A\r"), us("FF\r"), partner("FQ\r")];
    let script = [&example.script[..], &more].concat();
    Example { script, states: vec![State::Forwarded], ..example }.inbox(&[(b"1_A", b"HI", b"AB")])
}

fn right() -> Example {
    taken(after_ours("Q-5, right checksum", [THEIRS, THEIR_END].concat()))
}

/// Doubled spaces, spaces at the end, small letters, zeros in front: summed as they
/// came; the `;` lines and the LFs are not.
fn as_received() -> Example {
    let line = "fb  p A B C 1_A  00002  \r";
    let checksum = proposal::write(&proposal::TurnLine::SummedEnd(checksum(line)));
    let end = String::from_utf8(checksum).expect("ASCII").to_ascii_lowercase();
    let turn = ["; one\r\n", line, "\n; two\r\n", end.trim_end(), "  \r\n"].concat();
    taken(after_ours("Q-5, lines as received", turn))
}

/// What makes the sum of a text's bytes 0 modulo 256.
fn checksum(text: &str) -> u8 {
    text.bytes().fold(0, u8::wrapping_sub)
}

/// "A turn with a wrong checksum is no valid turn."
fn wrong() -> Example {
    after_ours("Q-5, wrong checksum", [THEIRS, "F> 93\r"].concat()).refused(WRONG_BLOCK_SUM)
}

/// "A proposal with one wrong letter in the BID went through."
fn one_letter() -> Example {
    let turn = ["FB P A B C 1_B 2\r", THEIR_END].concat();
    after_ours("Q-5, one wrong letter in a BID", turn).refused(WRONG_BLOCK_SUM)
}

/// 6 goes before 13.
fn none() -> Example {
    after_ours("Q-5, a checksum of no proposal", "F> 00\r").refused(PROPOSAL_COUNT)
}

/// And 5 before both.
fn three_digits() -> Example {
    after_ours("Q-5, three digits", [THEIRS, "F> 925\r"].concat()).refused(LINE_NOT_ALLOWED)
}

/// Called by a real LinFBB, its port with LF after each CR; the lines and the
/// checksum are those of tests/peers/captures/called-plain.
fn linfbb() -> Example {
    let script = vec![
        us("[NOD-1-B1FH$]\r>\r"),
        partner(
            "[FBB-7.0.11-AFHM$]\r\nFB P F0AAA N0DE.TST.FRA.EU N0DE 303_F0SRC 20\r\n\
            FB B F0BBB WW TEST 304_F0SRC 20\r\nF> F0\r\n",
        ),
        us("FS ++\r"),
        partner("Plain out\r\nHello\r\x1A\r\nBulletin\r\x1A\r\n"),
        us("FF\r"),
        partner("FQ\r"),
    ];
    Example::new("Q-5, a real LinFBB calls", false, script)
        .inbox(&[(b"303_F0SRC", b"Plain out", b"\nHello\r"), (b"304_F0SRC", b"Bulletin", b"")])
}
