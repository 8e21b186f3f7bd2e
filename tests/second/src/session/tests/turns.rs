//! Turns: who proposes what, and how a session ends.

use super::end::{packed_table, plain_table, proposals, state_at, transfers};
use super::end::{End, CALLER, PARTNER};
use crate::host::{Buffers, Letter};
use crate::memory::State::{Declined, Forwarded, Waiting};
use crate::refusal::{BYTES_WAIT, SESSION_ENDED};
use crate::session::Reply;
use crate::sid::Mode;

/// "`-` sets state 2 at the CR of a valid line. A deferred record stays 0.
/// Accepted records are sent in order."
#[test]
fn signs_are_recorded_at_the_cr_of_the_fs_line() {
    let mut end = End::called(&plain_table(&[1, 2, 3, 4]));
    end.hears(b"FF\r");
    end.says(&proposals(&[(1, 1), (2, 2), (3, 3), (4, 4)]));
    end.hears(b"FS +-=+");
    assert_eq!(end.states(), [Waiting; 4]);
    end.hears(b"\r");
    assert_eq!(end.states(), [Waiting, Declined, Waiting, Waiting]);
    end.says(&transfers(&[1, 4]));
    end.hears(b"FF\r");
    assert_eq!(end.states(), [Forwarded, Declined, Waiting, Forwarded]);
    // Deferred in this session, so not proposed again: nothing remains.
    end.says(b"FQ\r");
    assert!(end.session.is_over());
}

/// With nothing accepted nothing is sent, and the partner's turn comes.
#[test]
fn nothing_accepted() {
    let mut end = End::called(&plain_table(&[1, 2]));
    end.hears(b"FF\r");
    end.say();
    end.hears(b"FS -=\r");
    end.says(b"");
    end.hears(b"FF\r");
    end.says(b"FQ\r");
    assert_eq!(end.states(), [Declined, Waiting]);
}

/// "We propose waiting records in table order: form 0 in plain mode, 1 and 2 in
/// framed mode".
#[test]
fn only_waiting_records_of_the_mode_are_proposed() {
    let mut buffers = Buffers::new(1, 10);
    for line in [&b"FB P US THEM YOU 1_US 1"[..], b"FB P US THEM YOU 2_US 1"] {
        buffers.add(&Letter::new(Mode::Plain, line, b"T", b""));
    }
    for line in [&b"FB P US THEM YOU 3_US 1"[..], b"FA B US THEM YOU 4_US 1"] {
        buffers.add(&Letter::new(Mode::Framed, line, b"T", b""));
    }
    let mut end = End::called(&buffers);
    end.hears(b"FF\r");
    end.says(b"FB P US THEM YOU 1_US 1\rFB P US THEM YOU 2_US 1\rF>\r");
    let mut end = End::called_framed(&buffers);
    end.hears(b"FF\r");
    end.says(b"FB P US THEM YOU 3_US 1\rFA B US THEM YOU 4_US 1\rF>\r");
    // The first is forwarded and the second declined already.
    buffers.table[state_at(0, PARTNER)] = 1;
    buffers.table[state_at(1, PARTNER)] = 2;
    let mut end = End::called(&buffers);
    end.hears(b"FF\r");
    end.says(b"FQ\r");
}

/// Seven records go in two blocks; the direction turns between.
#[test]
fn blocks_of_five_until_none_remains() {
    let mut end = End::caller(&plain_table(&[1; 7]));
    let first: Vec<(usize, u32)> = (1..=5).map(|place| (place, 1)).collect();
    end.says(&[b"[NOD-1-B1FH$]\r", &proposals(&first)[..]].concat());
    end.hears(b"FS +++++\r");
    end.says(&transfers(&[1, 2, 3, 4, 5]));
    end.hears(b"FF\r");
    assert_eq!(
        end.states(),
        [Forwarded, Forwarded, Forwarded, Forwarded, Forwarded, Waiting, Waiting]
    );
    end.says(&proposals(&[(6, 1), (7, 1)]));
    end.hears(b"FS ++\r");
    end.says(&transfers(&[6, 7]));
    end.hears(b"FF\r");
    end.says(b"FQ\r");
    assert_eq!(end.states(), [Forwarded; 7]);
}

/// "If none remains: FF, or FQ if the partner's turn just now was FF." Reading
/// 26: "just now" is the turn that gave us the right to speak.
#[test]
fn ff_after_a_block_and_fq_after_ff() {
    let mut end = End::called(&plain_table(&[]));
    for number in 1..=3 {
        end.hears(format!("FB P THEM US ME {number}_THEM 5\rF>\r").as_bytes());
        end.says(b"FS +\r");
        end.hears(b"T\rtext\r\x1A\r");
        end.says(b"FF\r");
    }
    // All copies: FS line and FF together.
    end.hears(b"FB P THEM US ME 1_THEM 5\rF>\r");
    end.says(b"FS -\rFF\r");
    end.hears(b"FQ\r");
    assert!(end.session.is_over());
    assert_eq!(end.kept().len(), 3);
}

/// DECISIONS 53: "The session lives until our FQ's CR is handed out".
#[test]
fn our_fq_ends_the_session_when_it_is_given() {
    let mut end = End::called(&plain_table(&[]));
    end.hears(b"FF\r");
    assert_eq!(end.say_up_to(2), b"FQ");
    end.hears(b"");
    end.hears(b"\n");
    end.hears(b"");
    assert_eq!(end.say_up_to(2), b"\r");
    assert_eq!(end.hear(b""), Reply { answer: SESSION_ENDED, place: 0, count: 0 });
    let mut end = End::called(&plain_table(&[]));
    end.hears(b"FF\r");
    end.say_up_to(2);
    end.refuses(b"x", BYTES_WAIT);
}

/// "Caller: we await the SID, skip text lines until the prompt, then send SID and
/// first turn. A prompt is a line whose last byte is its only `>`."
#[test]
fn the_calling_end_waits_for_the_prompt() {
    let mut end = End::open(CALLER, &plain_table(&[7]));
    end.hears(b"; hello\r[TST-1-F$]\r\nFS +\r\n\r\n>>\r\nF6FBB> x\r\n; no prompt>\r\n");
    end.says(b"");
    end.hears(b"de F6FBB  >  \r\n");
    end.says(b"[NOD-1-B1FH$]\rFB P US THEM YOU 1_US 7\rF>\r");
}

/// DECISIONS 41: "A prompt may hold any bytes; `F>` is one."
#[test]
fn any_line_with_one_mark_at_its_end_is_a_prompt() {
    for prompt in [&b"F>\r"[..], b">\r", b"\xFF\t>  \r", b"FS +>\r"] {
        let mut end = End::open(CALLER, &plain_table(&[]));
        end.hears(&[b"[TST-1-F$]\r", prompt].concat());
        end.says(b"[NOD-1-B1FH$]\rFF\r");
    }
}

/// DECISIONS 44: "A record deferred in a session is not proposed again in it; an
/// accepted open clears that."
#[test]
fn a_deferred_record_is_proposed_again_in_the_next_session() {
    let buffers = plain_table(&[7]);
    for _ in 0..2 {
        let mut end = End::called(&buffers);
        end.hears(b"FF\r");
        end.says(&proposals(&[(1, 7)]));
        end.hears(b"FS =\r");
        end.hears(b"FF\r");
        end.says(b"FQ\r");
        assert_eq!(end.states(), [Waiting]);
    }
}

/// "Partner has B: framed mode, at any level."
#[test]
fn framed_mode_at_any_level() {
    for sid in [&b"[TST-1-BF]\r>\r"[..], b"[TST-1-b9F]\r>\r", b"[TST-fB1]\r>\r"] {
        let mut end = End::open(CALLER, &packed_table(&[5]));
        end.hears(sid);
        end.says(b"[NOD-1-B1FH$]\rFA P US THEM YOU 1_US 5\rF>\r");
        end.hears(b"FS +\r");
        end.says(b"\x01\x05T1\x000\x00\x02\x05text\r\x04\x2E");
    }
}

/// "Give writes into the caller's buffer from a given place to its end at most".
#[test]
fn give_writes_from_a_place_to_the_end() {
    let mut end = End::open(0, &plain_table(&[]));
    let mut buffer = *b"..........";
    let mut give = |buffer: &mut [u8], place| end.session.give(&end.memory, buffer, place);
    assert_eq!(give(&mut buffer, 10), Reply::ok(0));
    assert_eq!(give(&mut buffer, usize::MAX), Reply::ok(0));
    assert_eq!(give(&mut buffer[..6], 2), Reply::ok(4));
    assert_eq!(&buffer, b"..[NOD....");
    assert_eq!(give(&mut buffer, 0), Reply::ok(10));
    assert_eq!(&buffer, b"-1-B1FH$]\r");
    assert_eq!(give(&mut buffer, 4), Reply::ok(2));
    assert_eq!(&buffer, b"-1-B>\rH$]\r");
    assert_eq!(give(&mut buffer, 0), Reply::ok(0));
}
