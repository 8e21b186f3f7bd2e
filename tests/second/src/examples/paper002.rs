//! Document 002 (FBB protocol). What it shows in angle brackets and colours
//! stands here as bytes; `^Z` is 0x1A. Spaces at the end of its lines are kept.

use super::{both_roles, partner, us, Example, Taken};
use crate::host::Letter;
use crate::memory::State::{self, Declined, Forwarded, Waiting};
use crate::refusal::{BAD_ANSWER, BAD_CHECKSUM, LINE_NOT_ALLOWED, NO_FORWARDING};
use crate::sid::Mode;

const FIRST: &[u8] = b"FB P F6FBB FC1GHV.FFPC.FRA.EU FC1MVP 24657_F6FBB 1345";
const SECOND: &[u8] = b"FB P FC1CDC F6ABJ F6AXV 24643_F6FBB 5346";
const THIRD: &[u8] = b"FB B F6FBB FRA FBB 22_456_F6FBB 8548";
const FOURTH: &[u8] = b"FB P FC1CDC F6ABJ F6AXV 24754_F6FBB 345";
const FIFTH: &[u8] = b"FB B F6FBB TEST FRA 24654_F6FBB 145";
const PACKED: &[u8] = b"FA P FC1CDC F6ABJ F6AXV 24754_F6FBB 345";

/// "Example of proposal", as it goes over the link.
const BLOCK: &str =
    "FB P F6FBB FC1GHV.FFPC.FRA.EU FC1MVP 24657_F6FBB 1345\rFB P FC1CDC F6ABJ F6AXV \
24643_F6FBB 5346\rFB B F6FBB FRA FBB 22_456_F6FBB 8548\rF>\r";
/// The same, with the spaces that the long session has at its lines' ends.
const BLOCK_SPACES: &str = "FB P F6FBB FC1GHV.FFPC.FRA.EU FC1MVP 24657_F6FBB 1345 \rFB P FC1CDC \
F6ABJ F6AXV 24643_F6FBB 5346 \rFB B F6FBB FRA FBB 22_456_F6FBB 8548 \rF> \r";
/// What the called end proposes in the long session.
const BACK: &str =
    "FB P FC1GHV F6FBB F6FBB 2734_FC1GHV 234\rFB B FC1GHV F6FBB FC1CDC 2745_FC1GHV 3524\rF>\r";
const BACK_SPACES: &str =
    "FB P FC1GHV F6FBB F6FBB 2734_FC1GHV 234 \rFB B FC1GHV F6FBB FC1CDC 2745_FC1GHV 3524 \rF> \r";

pub(super) fn all() -> Vec<Example> {
    let one_role = vec![
        long_session_called(),
        long_session_caller(),
        no_f_called(),
        no_f_caller(),
        ff_and_block_end(),
    ];
    let either_role = vec![
        block_answered(),
        block_answering(),
        version_0_called(),
        version_1_caller(),
        field_missing(),
        new_answers(),
        checksum_error(),
        checksum_comment(),
    ];
    [one_role, both_roles(either_role)].concat()
}

fn plain(line: &[u8], heading: &[u8], body: &[u8]) -> Letter {
    Letter::new(Mode::Plain, line, heading, body)
}

fn five_letters() -> Vec<Letter> {
    vec![
        plain(FIRST, b"Title 1st message", b"Text 1st message ......\r"),
        plain(SECOND, b"Title 2nd message", b"Text 2nd message ......\r"),
        plain(THIRD, b"Title 3rd message", b"Text 3rd message ......\r"),
        plain(FOURTH, b"Title message", b"Text message ......\r"),
        plain(FIFTH, b"Title message", b"Text message ......\r"),
    ]
}

/// The long session from the called end. DECISIONS 60: whose line it is follows
/// from the italics.
fn long_session_called() -> Example {
    let back = vec![
        plain(b"FB P FC1GHV F6FBB F6FBB 2734_FC1GHV 234", b"Back", b"one\r"),
        plain(b"FB B FC1GHV F6FBB FC1CDC 2745_FC1GHV 3524", b"Back", b"two\r"),
    ];
    let taken: [Taken; 4] = [
        (b"24657_F6FBB", b"Title 1st message", b"Text 1st message ...... \r"),
        (b"22_456_F6FBB", b"Title 3rd message ", b"Text 3rd message ...... \r"),
        (b"24754_F6FBB", b"Title message ", b"Text message ...... \r"),
        (b"24654_F6FBB", b"Title message ", b"Text message ...... \r"),
    ];
    Example::new(
        "002, long session, called end",
        false,
        vec![
            us("[NOD-1-B1FH$]\r>\r"),
            partner([b"[FBB-5.11-FHM$] \r", BLOCK_SPACES.as_bytes()].concat()),
            us("FS +-+\r"),
            partner(
                "Title 1st message\rText 1st message ...... \r\x1A \r\
                 Title 3rd message \rText 3rd message ...... \r\x1A \r",
            ),
            us(BACK),
            partner("FS -- \rFB P FC1CDC F6ABJ F6AXV 24754_F6FBB 345 \rF> \r"),
            us("FS +\r"),
            partner("Title message \rText message ...... \r\x1A \r"),
            us("FF\r"),
            partner("FB B F6FBB TEST FRA 24654_F6FBB 145 \rF>\r"),
            us("FS +\r"),
            partner("Title message \rText message ...... \r\x1A \r"),
            us("FF\r"),
            partner("FQ\r"),
        ],
    )
    .letters(back, &[Declined; 2])
    .known(&[b"24643_F6FBB"])
    .inbox(&taken)
}

/// The long session from the calling end. DECISIONS 60: 002 splits the fourth and
/// the fifth message over two turns, 01 puts both in one block.
fn long_session_caller() -> Example {
    let message = "Title message\rText message ......\r\x1A\r";
    Example::new(
        "002, long session, calling end",
        true,
        vec![
            partner("[FBB-5.11-FHM$]\rWelcome, Jean-Paul. \r> \r"),
            us([b"[NOD-1-B1FH$]\r", BLOCK.as_bytes()].concat()),
            partner("FS +-+ \r"),
            us("Title 1st message\rText 1st message ......\r\x1A\r\
                Title 3rd message\rText 3rd message ......\r\x1A\r"),
            partner(BACK_SPACES),
            us([b"FS --\r", FOURTH, b"\r", FIFTH, b"\rF>\r"].concat()),
            partner("FS ++ \r"),
            us([message, message].concat()),
            partner("FF \r"),
            us("FQ\r"),
        ],
    )
    .letters(five_letters(), &[Forwarded, Declined, Forwarded, Forwarded, Forwarded])
    .known(&[b"2734_FC1GHV", b"2745_FC1GHV"])
}

/// "FS -+=": "I don't want the first message (-). I need the second message (+).
/// Defer the third message". The deferred one isn't proposed again.
fn block_answered() -> Example {
    Example::new(
        "002, a block answered",
        true,
        vec![
            partner("[FBB-5.11-FHM$]\r>\r"),
            us([b"[NOD-1-B1FH$]\r", BLOCK.as_bytes()].concat()),
            partner("FS -+= \r"),
            us("Title 2nd message\rText 2nd message ......\r\x1A\r"),
            partner("FF\r"),
            us("FQ\r"),
        ],
    )
    .letters(five_letters()[..3].to_vec(), &[Declined, Forwarded, Waiting])
}

/// The same block from the other end: the first is known, the third "too big".
fn block_answering() -> Example {
    let example = Example::new(
        "002, a block to answer",
        false,
        vec![
            us("[NOD-1-B1FH$]\r>\r"),
            partner(["[FBB-5.11-FHM$]\r", BLOCK].concat()),
            us("FS -+=\r"),
            partner("Title 2nd message\rText 2nd message ......\r\x1A\r"),
            us("FF\r"),
            partner("FQ\r"),
        ],
    );
    let taken: Taken = (b"24643_F6FBB", b"Title 2nd message", b"Text 2nd message ......\r");
    Example { room: 5346 + 8547, ..example.known(&[b"24657_F6FBB"]).inbox(&[taken]) }
}

/// "[FBB-5.15-BFHM$]", and its example of an ascii compressed message, which
/// comes to the node as plain bytes.
fn version_0_called() -> Example {
    Example::new(
        "002, version 0, called end",
        false,
        vec![
            us("[NOD-1-B1FH$]\r>\r"),
            partner([b"[FBB-5.15-BFHM$]\r", PACKED, b"\rF>\r"].concat()),
            us("FS +\r"),
            partner(b"\x01\x10Title message\x000\x00\x02\x03abc\x02\x01d\x04\x76"),
            us("FF\r"),
            partner("FQ\r"),
        ],
    )
    .inbox(&[(b"24754_F6FBB", b"Title message", b"abcd")])
}

/// "[FBB-5.15-B1FHLM$]": framed too, with the same words. The plain message of
/// the table isn't proposed.
fn version_1_caller() -> Example {
    let mut letters = vec![plain(SECOND, b"Title", b"Text")];
    letters.push(Letter::new(Mode::Framed, PACKED, b"Title message", b"abcd"));
    Example::new(
        "002, version 1, calling end",
        true,
        vec![
            partner("[FBB-5.15-B1FHLM$]\rWelcome, Jean-Paul.\r>\r"),
            us([b"[NOD-1-B1FH$]\r", PACKED, b"\rF>\r"].concat()),
            partner("FS +\r"),
            us(b"\x01\x10Title message\x000\x00\x02\x04abcd\x04\x76"),
            partner("FF\r"),
            us("FQ\r"),
        ],
    )
    .letters(letters, &[State::Waiting, State::Forwarded])
}

/// "If F6FBB had sent the SID [FBB-5.10-MH$]": not this protocol.
fn no_f_called() -> Example {
    let script = vec![us("[NOD-1-B1FH$]\r>\r"), partner("[FBB-5.10-MH$]\r")];
    Example::new("002, no F, called end", false, script).refused(NO_FORWARDING)
}

fn no_f_caller() -> Example {
    // "A SID with just a letter B (and no F) will be treated as having neither
    // letter."
    Example::new("002, B and no F, calling end", true, vec![partner("[FBB-5.15-BHM$]\r")])
        .refused(NO_FORWARDING)
}

/// "ALL the fields are necessary."
fn field_missing() -> Example {
    let proposal = "[FBB-5.11-FHM$]\rFB P F6FBB FC1GHV FC1MVP 24657_F6FBB\r";
    let script = vec![us("[NOD-1-B1FH$]\r>\r"), partner(proposal)];
    Example::new("002, a field is missing", false, script).refused(LINE_NOT_ALLOWED)
}

/// FF: "This line must not to be followed by a F>."
fn ff_and_block_end() -> Example {
    let script = vec![
        us("[NOD-1-B1FH$]\r>\r"),
        partner("[FBB-5.11-FHM$]\rFF\r"),
        us([FOURTH, b"\rF>\r"].concat()),
        partner("F>\r"),
    ];
    Example::new("002, FF and F>", false, script)
        .letters(five_letters()[3..4].to_vec(), &[Waiting])
        .refused(LINE_NOT_ALLOWED)
}

/// "A new set of answers in an FS line": not in 01, so wrong in form.
fn new_answers() -> Example {
    let script = vec![
        partner("[FBB-5.15-FHLM$]\r>\r"),
        us([b"[NOD-1-B1FH$]\r", BLOCK.as_bytes()].concat()),
        partner("FS YLA3350RH\r"),
    ];
    Example::new("002, new answers", true, script)
        .letters(five_letters()[..3].to_vec(), &[Waiting; 3])
        .refused(BAD_ANSWER)
}

/// "In case of a checksum error, the message or the file is ignored".
fn checksum_error() -> Example {
    let script = vec![
        us("[NOD-1-B1FH$]\r>\r"),
        partner([b"[FBB-5.15-BFHM$]\r", PACKED, b"\rF>\r"].concat()),
        us("FS +\r"),
        partner(b"\x01\x10Title message\x000\x00\x02\x04abcd\x04\x77"),
    ];
    Example::new("002, checksum error", false, script).refused(BAD_CHECKSUM)
}

/// "the system issues a disconnect request after having sent the comment: ***
/// Erreur checksum". It is no turn, so nothing is marked.
fn checksum_comment() -> Example {
    let script = vec![
        partner("[FBB-5.15-BFHM$]\r>\r"),
        us([b"[NOD-1-B1FH$]\r", PACKED, b"\rF>\r"].concat()),
        partner("FS +\r"),
        us(b"\x01\x10Title message\x000\x00\x02\x04abcd\x04\x76"),
        partner("*** Erreur checksum\r"),
    ];
    Example::new("002, checksum comment", true, script)
        .letters(vec![Letter::new(Mode::Framed, PACKED, b"Title message", b"abcd")], &[Waiting])
        .refused(LINE_NOT_ALLOWED)
}
