//! Request Q-1's own sessions: each refusal with the line that says why, and such a
//! line of a partner's wherever it can come.

use super::{both_roles, partner, us, Example};
use crate::host::Letter;
use crate::memory::State;
use crate::refusal::{
    BAD_ANSWER, BAD_CHECKSUM, BAD_TRANSFER, LINE_NOT_ALLOWED, LINE_TOO_LONG, NOT_SID,
    NO_FORWARDING, PROPOSAL_COUNT, STORE_FULL, WRONG_BLOCK_SUM,
};
use crate::sid::Mode;

pub(super) fn all() -> Vec<Example> {
    let turns = vec![
        turn("Q-1, refusal 5", "hello\r", LINE_NOT_ALLOWED),
        turn("Q-1, refusal 6, none", "F>\r", PROPOSAL_COUNT),
        turn("Q-1, refusal 6, a sixth", ["FB P A B C 1_A 2\r"; 6].concat(), PROPOSAL_COUNT),
        turn("Q-1, refusal 13", "FB P A B C 1_A 2\rF> 93\r", WRONG_BLOCK_SUM),
        turn("Q-1, a line where a turn is due", THEIRS, LINE_NOT_ALLOWED),
        turn("Q-1, a checksum line where a turn is due", "*** Checksum error\r", LINE_NOT_ALLOWED),
    ];
    let others = vec![
        first_line("Q-1, refusal 3", "hello\r", NOT_SID),
        first_line("Q-1, refusal 4", "[TST-1-H$]\r", NO_FORWARDING),
        first_line("Q-1, a line where a SID is due", THEIRS, NOT_SID),
        greeting(),
        answer("Q-1, refusal 7", "FS +-\r", BAD_ANSWER),
        answer("Q-1, a line where FS is due", THEIRS, LINE_NOT_ALLOWED),
    ];
    [both_roles(turns), others, lines(), transfers()].concat()
}

const THEIRS: &str = "*** Protocol error\r";
const OURS: &[u8] = b"FB P F6FBB FC1GHV FC1MVP 1_F6FBB 2";

/// A caller hears this after its FF.
fn turn(name: &'static str, said: impl AsRef<[u8]>, answer: u8) -> Example {
    let script = vec![partner("[TST-1-F$]\r>\r"), us("[NOD-1-B1FH$]\rFF\r"), partner(said)];
    Example::new(name, true, script).refused(answer)
}

fn first_line(name: &'static str, said: &str, answer: u8) -> Example {
    Example::new(name, true, vec![partner(said)]).refused(answer)
}

/// A line of 257 bytes, wherever lines are awaited: the refused byte is no CR.
fn lines() -> Vec<Example> {
    let long = "*".repeat(257);
    let sid = vec![us("[NOD-1-B1FH$]\r>\r"), partner(&long)];
    let greeting = vec![partner(["[TST-1-F$]\r", &long].concat())];
    vec![
        Example::new("Q-1, refusal 2, SID", false, sid).refused(LINE_TOO_LONG),
        Example::new("Q-1, refusal 2, greeting", true, greeting).refused(LINE_TOO_LONG),
        turn("Q-1, refusal 2, turn", &long, LINE_TOO_LONG),
        answer("Q-1, refusal 2, FS", &long, LINE_TOO_LONG),
    ]
}

/// Before the prompt such a line is text like any other.
fn greeting() -> Example {
    let script = vec![
        partner(["[TST-1-F$]\r", THEIRS, ">\r"].concat()),
        us("[NOD-1-B1FH$]\rFF\r"),
        partner("FQ\r"),
    ];
    Example::new("Q-1, a line before the prompt", true, script)
}

/// Our block is answered by this.
fn answer(name: &'static str, said: &str, answer: u8) -> Example {
    let script = vec![
        us("[NOD-1-B1FH$]\r>\r"),
        partner("[TST-1-F$]\rFF\r"),
        us([OURS, b"\rF>\r"].concat()),
        partner(said),
    ];
    let letter = Letter::new(Mode::Plain, OURS, b"HI", b"AB");
    Example::new(name, false, script).letters(vec![letter], &[State::Waiting]).refused(answer)
}

/// A caller has accepted a message and hears this.
fn transfer(name: &'static str, mode: Mode, said: impl AsRef<[u8]>) -> Example {
    let (sid, proposal) = match mode {
        Mode::Plain => ("[TST-1-F$]\r>\r", "FB P A B C 1_A 2\rF>\r"),
        Mode::Framed => ("[TST-1-BF$]\r>\r", "FA P A B C 1_A 2\rF>\r"),
    };
    let script = vec![
        partner(sid),
        us("[NOD-1-B1FH$]\rFF\r"),
        partner(proposal),
        us("FS +\r"),
        partner(said),
    ];
    Example::new(name, true, script)
}

/// A line of the partner's is title or body, or data of a framed block; where a
/// framed transfer has another byte, it is wrong.
fn transfers() -> Vec<Example> {
    let plain = |name, said: &str| transfer(name, Mode::Plain, said);
    let framed = |name, said: &[u8]| transfer(name, Mode::Framed, said);
    let tight = |example: Example| Example { room: 2, ..example };
    let title = plain("Q-1, a line where a title is due", "*** Protocol error\rAB\x1A\r");
    let body = plain("Q-1, a line in a body", "HI\r*** Protocol error\r\x1A\r");
    let header = b"\x01\x05HI\x000\x00";
    let block = framed(
        "Q-1, a line in a framed block",
        &[header, &b"\x02\x13*** Protocol error\r\x04\xB9"[..]].concat(),
    );
    vec![
        went_on(title).inbox(&[(b"1_A", b"*** Protocol error", b"AB")]),
        went_on(body).inbox(&[(b"1_A", b"HI", b"*** Protocol error\r")]),
        went_on(block).inbox(&[(b"1_A", b"HI", b"*** Protocol error\r")]),
        framed("Q-1, a line where a header is due", b"*").refused(BAD_TRANSFER),
        framed("Q-1, a line where a mark is due", &[&header[..], b"*"].concat())
            .refused(BAD_TRANSFER),
        plain("Q-1, refusal 8, plain", "HI\rAB\x1Ax").refused(BAD_TRANSFER),
        framed("Q-1, refusal 9", &[&header[..], b"\x02\x02AB\x04\x7E"].concat())
            .refused(BAD_CHECKSUM),
        tight(plain("Q-1, refusal 10, plain", "HI\rABC")).refused(STORE_FULL),
        tight(framed("Q-1, refusal 10", &[&header[..], b"\x02\x03ABC"].concat()))
            .refused(STORE_FULL),
    ]
}

/// The transfer was whole: our turn, and FQ.
fn went_on(example: Example) -> Example {
    let script = [&example.script[..], &[us("FF\r"), partner("FQ\r")]].concat();
    Example { script, ..example }
}
