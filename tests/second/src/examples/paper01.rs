//! 01's own sessions, and what it says of them made whole.

use super::{both_roles, partner, us, Example, Said};
use crate::host::Letter;
use crate::memory::State;
use crate::refusal::{LINE_NOT_ALLOWED, LINE_TOO_LONG};
use crate::sid::Mode;

pub(super) fn all() -> Vec<Example> {
    let one_role = vec![
        whole_session(),
        nothing_to_say(),
        first_lf_called(),
        first_lf_caller(),
        accents_called(),
        accents_caller(),
        line_of_256_called(),
        line_of_256_caller(),
        line_of_257_called(),
        line_of_257_caller(),
        comment_of_257(),
    ];
    [one_role, both_roles(vec![framed(), fq_after_transfers()])].concat()
}

/// "Whole session, called, empty table. In: `[TST-1-F$]` CR `FF` CR, after our
/// prompt was taken. Out in all: `[NOD-1-B1FH$]` CR `>` CR `FQ` CR."
fn whole_session() -> Example {
    Example::new(
        "01, whole session",
        false,
        vec![us("[NOD-1-B1FH$]\r>\r"), partner("[TST-1-F$]\rFF\r"), us("FQ\r")],
    )
}

/// The same from the calling end.
fn nothing_to_say() -> Example {
    Example::new(
        "01, whole session from the calling end",
        true,
        vec![partner("[TST-1-F$]\r>\r"), us("[NOD-1-B1FH$]\rFF\r"), partner("FQ\r")],
    )
}

/// "Heading `HI`, data 41 42: 01 05 48 49 00 30 00 02 02 41 42 04 7D. Empty data
/// ends 04 00.", in both directions, with the partner's SID of 01's examples.
fn framed() -> Example {
    let letters = vec![
        Letter::new(Mode::Framed, b"FA P F6FBB FC1GHV FC1MVP 1_F6FBB 2", b"HI", b"AB"),
        Letter::new(Mode::Framed, b"FB B F6FBB FRA FBB 2_F6FBB 0", b"HI", b""),
    ];
    let transfers = b"\x01\x05HI\x000\x00\x02\x02AB\x04\x7D\x01\x05HI\x000\x00\x04\x00";
    Example::new(
        "01, framed transfers both ways",
        true,
        vec![
            partner("[BayCom-1.40P-AB1D1FHMRW$]\rHello\rde FC1GHV >\r"),
            us("[NOD-1-B1FH$]\rFA P F6FBB FC1GHV FC1MVP 1_F6FBB 2\r\
                FB B F6FBB FRA FBB 2_F6FBB 0\rF>\r"),
            partner("FS ++\r"),
            us(transfers),
            partner("FA P FC1GHV F6FBB F6FBB 1_FC1GHV 2\rFB B FC1GHV FRA FBB 2_FC1GHV 0\rF>\r"),
            us("FS ++\r"),
            partner(transfers),
            us("FF\r"),
            partner("FQ\r"),
        ],
    )
    .letters(letters, &[State::Forwarded; 2])
    .inbox(&[(b"1_FC1GHV", b"HI", b"AB"), (b"2_FC1GHV", b"HI", b"")])
}

/// The slip "Marking on FQ sent straight after our transfers."
fn fq_after_transfers() -> Example {
    Example::new(
        "01, FQ straight after our transfers",
        true,
        vec![
            partner("[TST-1-F$]\r>\r"),
            us("[NOD-1-B1FH$]\rFB P F6FBB FC1GHV FC1MVP 1_F6FBB 2\rF>\r"),
            partner("FS +\r"),
            us("HI\rAB\x1A\r"),
            partner("FQ\r"),
        ],
    )
    .letters(
        vec![Letter::new(Mode::Plain, b"FB P F6FBB FC1GHV FC1MVP 1_F6FBB 2", b"HI", b"AB")],
        &[State::Waiting],
    )
    .refused(LINE_NOT_ALLOWED)
}

const OURS: &[u8] = b"FB P F6FBB FC1GHV FC1MVP 1_F6FBB 2";

/// The slip "Dropping a body's first LF because a CR stood before it.", among
/// lines and transfers that end with CR LF.
fn first_lf(we_called: bool, script: Vec<Said>) -> Example {
    Example::new("01, a body that begins with LF", we_called, script)
        .letters(vec![Letter::new(Mode::Plain, OURS, b"HI", b"\n\n")], &[State::Forwarded])
        .inbox(&[(b"1_A", b"HI", b"\nAB"), (b"2_A", b"HI", b"\n")])
}

const LF_BLOCK: &str = "FB P A B C 1_A 3\r\nFB P A B C 2_A 3\r\nF>\r\n";
const LF_TRANSFERS: &str = "HI\r\nAB\x1A\r\nHI\r\n\x1A \r\n";

fn first_lf_called() -> Example {
    let script = vec![
        us("[NOD-1-B1FH$]\r>\r"),
        partner(["[TST-1-F$]\r\n", LF_BLOCK].concat()),
        us("FS ++\r"),
        partner(LF_TRANSFERS),
        us([OURS, b"\rF>\r"].concat()),
        partner("FS +\r\n"),
        us("HI\r\n\n\x1A\r"),
        partner("FF\r\n"),
        us("FQ\r"),
    ];
    first_lf(false, script)
}

fn first_lf_caller() -> Example {
    let script = vec![
        partner("[TST-1-F$]\r\n>\r\n"),
        us([b"[NOD-1-B1FH$]\r", OURS, b"\rF>\r"].concat()),
        partner("FS +\r\n"),
        us("HI\r\n\n\x1A\r"),
        partner(LF_BLOCK),
        us("FS ++\r"),
        partner(LF_TRANSFERS),
        us("FF\r"),
        partner("FQ\r"),
    ];
    first_lf(true, script)
}

const ACCENT_LINE: &[u8] = b"FB P F6FBB FC1GHV FC1MVP 1_\xC9\xE9\xFF 2";
const ACCENT_TRANSFER: &[u8] = b"\xC9t\xE9 \x80\xFF\r\xE0\xFF\x1A\r";
const ACCENT_BLOCK: &[u8] = b"FB P A B C 1_\xC9\xE9\xFF 2\rFB P A B C 1_\xE9\xE9\xFF 2\r\
FB P A B C 1_\x49\x69\x7F 2\rF>\r";

/// The slip "Folding or stripping bytes from 0x80 in a title or BID." Of the
/// partner's BIDs the first is ours, the second isn't but for folding, the third
/// isn't but for stripping.
fn accents(we_called: bool, script: Vec<Said>) -> Example {
    let letter = Letter::new(Mode::Plain, ACCENT_LINE, b"\xC9t\xE9 \x80\xFF", b"\xE0\xFF");
    Example::new("01, accents in titles and BIDs", we_called, script)
        .letters(vec![letter], &[State::Forwarded])
        .inbox(&[
            (b"1_\xE9\xE9\xFF", b"\xC9t\xE9 \x80\xFF", b"\xE0\xFF"),
            (b"1_\x49\x69\x7F", b"Ete", b"AB"),
        ])
}

fn accents_called() -> Example {
    let script = vec![
        us("[NOD-1-B1FH$]\r>\r"),
        partner([b"[TST-1-F$]\r", ACCENT_BLOCK].concat()),
        us("FS -++\r"),
        partner([ACCENT_TRANSFER, b"Ete\rAB\x1A\r"].concat()),
        us([ACCENT_LINE, b"\rF>\r"].concat()),
        partner("FS +\r"),
        us(ACCENT_TRANSFER),
        partner("FF\r"),
        us("FQ\r"),
    ];
    accents(false, script)
}

fn accents_caller() -> Example {
    let script = vec![
        partner("[TST-1-F$]\r>\r"),
        us([b"[NOD-1-B1FH$]\r", ACCENT_LINE, b"\rF>\r"].concat()),
        partner("FS +\r"),
        us(ACCENT_TRANSFER),
        partner(ACCENT_BLOCK),
        us("FS -++\r"),
        partner([ACCENT_TRANSFER, b"Ete\rAB\x1A\r"].concat()),
        us("FF\r"),
        partner("FQ\r"),
    ];
    accents(true, script)
}

/// A line with spaces up to so many bytes, without its CR.
fn padded(text: &str, length: usize) -> String {
    format!("{text:length$}")
}

/// "256 bytes then CR: judged": SID, `;` line, proposal, `F>` and FQ.
fn line_of_256_called() -> Example {
    let lines = ["[TST-1-F$]", "; hello", "FB P A B C 1_A 2", "F>"];
    let lines: String = lines.map(|line| padded(line, 256) + "\r").concat();
    let script = vec![
        us("[NOD-1-B1FH$]\r>\r"),
        partner(lines),
        us("FS +\r"),
        partner("HI\rAB\x1A\r"),
        us("FF\r"),
        partner(padded("FQ", 256) + "\r"),
    ];
    Example::new("01, lines of 256 bytes, called", false, script).inbox(&[(b"1_A", b"HI", b"AB")])
}

/// The same with a text line, the prompt and FS.
fn line_of_256_caller() -> Example {
    let lines = ["[TST-1-F$]", "hello", ">"].map(|line| padded(line, 256) + "\r").concat();
    let script = vec![
        partner(lines),
        us([b"[NOD-1-B1FH$]\r", OURS, b"\rF>\r"].concat()),
        partner(padded("FS +", 256) + "\r"),
        us("HI\rAB\x1A\r"),
        partner(padded("FF", 256) + "\r"),
        us("FQ\r"),
    ];
    Example::new("01, lines of 256 bytes, caller", true, script)
        .letters(vec![Letter::new(Mode::Plain, OURS, b"HI", b"AB")], &[State::Forwarded])
}

/// "257: refusal 2": at the 257th byte, though it is a space and no CR came.
fn line_of_257_called() -> Example {
    let script =
        vec![us("[NOD-1-B1FH$]\r>\r"), partner(["[TST-1-F$]\r", &padded("FF", 257)].concat())];
    Example::new("01, a line of 257 bytes, called", false, script).refused(LINE_TOO_LONG)
}

/// A text line before the prompt.
fn line_of_257_caller() -> Example {
    let script = vec![partner(["[TST-1-F$]\r", &padded("hello", 257)].concat())];
    Example::new("01, a line of 257 bytes, caller", true, script).refused(LINE_TOO_LONG)
}

/// A `;` line that is ignored otherwise.
fn comment_of_257() -> Example {
    let script = vec![us("[NOD-1-B1FH$]\r>\r"), partner(padded("; hello", 257))];
    Example::new("01, a ; line of 257 bytes", false, script).refused(LINE_TOO_LONG)
}
