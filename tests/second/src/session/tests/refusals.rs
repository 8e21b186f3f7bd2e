//! Refusals 2 to 12, each in its situation and in its order. (1 is in
//! `opening`, 13 in `sums`.)

use super::end::{packed_table, plain_table, proposals, End, CALLED, CALLER};
use crate::host::Buffers;
use crate::memory::State::Waiting;
use crate::refusal::{
    BAD_ANSWER, BAD_CHECKSUM, BAD_TRANSFER, BYTES_WAIT, LINE_NOT_ALLOWED, LINE_TOO_LONG, NOT_SID,
    NO_FORWARDING, PROPOSAL_COUNT, SESSION_ENDED, STORE_FULL,
};
use crate::session::Reply;

fn empty() -> Buffers {
    plain_table(&[])
}

/// A called end that has accepted this proposal of the partner.
fn owed(size: usize, buffers: &Buffers, framed: bool) -> End {
    let (mut end, letter) =
        if framed { (End::called_framed(buffers), "FA") } else { (End::called(buffers), "FB") };
    end.hears(format!("{letter} P THEM US ME 1_THEM {size}\rF>\r").as_bytes());
    end.says(b"FS +\r");
    end
}

/// An end that has proposed two records and awaits FS.
fn proposed() -> End {
    let mut end = End::called(&plain_table(&[5, 5]));
    end.hears(b"FF\r");
    end.says(&proposals(&[(1, 5), (2, 5)]));
    end
}

/// 2: "256 bytes then CR: judged; 257: refusal 2", wherever a line is awaited.
#[test]
fn r2_a_257th_byte_of_a_line() {
    let spaces = |text: &[u8], length: usize| {
        let mut line = text.to_vec();
        line.resize(length, b' ');
        line
    };
    let turn = || End::called(&empty());
    let greeting = || {
        let mut end = End::open(CALLER, &empty());
        end.hears(b"[TST-1-F$]\r");
        end
    };
    let sid = || End::open(CALLER, &empty());
    let cases: [(&dyn Fn() -> End, &[u8]); 6] = [
        (&turn, b"FF"),
        (&turn, b";"),
        (&greeting, b"text"),
        (&greeting, b"; text"),
        (&sid, b"[TST-1-F$]"),
        (&proposed, b"FS +-"),
    ];
    for (end, text) in cases {
        end().hears(&[&spaces(text, 256)[..], b"\r"].concat());
        end().refuses(&spaces(text, 257), LINE_TOO_LONG);
        // A CR LF before doesn't count toward the 256, a second LF does.
        end().hears(&[b";\r\n", &spaces(text, 256)[..], b"\r"].concat());
        end().refuses(&[b";\r\n\n", &spaces(text, 256)[..]].concat(), LINE_TOO_LONG);
    }
}

/// 3 before 4; a `;` line is not the first line.
#[test]
fn r3_first_line_is_no_sid() {
    for line in [&b"\r"[..], b"FF\r", b"[A--H]\r", b"[A-$]\r", b"[A-FF]\r", b"[A-HH]\r", b"> \r"] {
        End::open(CALLER, &empty()).refuses(line, NOT_SID);
        End::open(CALLER, &empty()).refuses(&[b"; hello\r\n", line].concat(), NOT_SID);
        let mut end = End::open(CALLED, &empty());
        end.say();
        end.refuses(line, NOT_SID);
    }
    // DECISIONS 4: an LF as the very first byte is an ordinary one.
    End::open(CALLER, &empty()).refuses(b"\n[TST-1-F$]\r", NOT_SID);
    // DECISIONS 43: FS is no turn line here.
    End::open(CALLER, &empty()).refuses(b"FS +\r", NOT_SID);
}

/// 4 comes at the SID's CR, for the caller too.
#[test]
fn r4_sid_without_f() {
    End::open(CALLER, &empty()).refuses(b"[ZFJ-2.3-H$]\r", NO_FORWARDING);
    End::open(CALLER, &empty()).refuses(b"[ZFJ-2.3-BH$] \r", NO_FORWARDING);
    let mut end = End::open(CALLED, &empty());
    end.say();
    end.refuses(b"[ZFJ-2.3-H$]\r", NO_FORWARDING);
    End::open(CALLER, &empty()).hears(b"[ZFJ-2.3-f$]\r");
}

/// 5: every line that is no turn line here.
#[test]
fn r5_turn_line_not_allowed() {
    let proposal: &[u8] = b"FB P THEM US ME 1_THEM 5\r";
    for wrong in [
        &b"\r"[..],
        b"  \r",
        b"hello\r",
        b"FB P THEM US ME 1_THEM\r",
        b"FB P THEM US ME 1_THEM 5 1\r",
        b"FA P THEM US ME 1_THEM 5\r",
        b"FB P THEM US ME 1_THEM 1234567890\r",
        b"FS +\r",
        b"FQ\r",
        b"FFF\r",
        b"F> 1\r",
        b" FF\r",
        b"\tFF\r",
    ] {
        End::called(&empty()).refuses(wrong, LINE_NOT_ALLOWED);
        End::called(&empty()).refuses(&[proposal, wrong].concat(), LINE_NOT_ALLOWED);
    }
    // Inside a block FF and FQ aren't allowed either.
    End::called(&empty()).refuses(&[proposal, b"FF\r"].concat(), LINE_NOT_ALLOWED);
    // Where FS is awaited, "any other 5".
    for other in [&b"FF\r"[..], b"F>\r", b"\r", b" FS ++\r", b"FB P THEM US ME 1_THEM 5\r"] {
        proposed().refuses(other, LINE_NOT_ALLOWED);
    }
}

/// "FQ is allowed only in answer to our FF. FF in answer to our FF gets 5."
#[test]
fn r5_ff_and_fq_after_our_ff() {
    let after_ff = || {
        let mut end = End::caller(&empty());
        end.says(b"[NOD-1-B1FH$]\rFF\r");
        end
    };
    after_ff().refuses(b"FF\r", LINE_NOT_ALLOWED);
    after_ff().refuses(b"; hello\rFF\r", LINE_NOT_ALLOWED);
    after_ff().hears(b"; hello\rFQ\r");
    // DECISIONS 42: FQ only as the first line but for `;` lines.
    after_ff().refuses(b"FB P THEM US ME 1_THEM 5\rFQ\r", LINE_NOT_ALLOWED);
    // After a block of the partner FF is said again, and FQ is allowed again.
    let mut end = after_ff();
    end.hears(b"FB P THEM US ME 1_THEM 5\rF>\r");
    end.says(b"FS +\r");
    end.hears(b"T\r\x1A\r");
    end.says(b"FF\r");
    end.refuses(b"FF\r", LINE_NOT_ALLOWED);
}

/// 6: "sixth proposal, or F> with none"; "A malformed or forbidden line gets 5
/// before 6 is thought of."
#[test]
fn r6_sixth_proposal_and_none() {
    let line = |n: usize| format!("FB P THEM US ME {n}_THEM 5\r").into_bytes();
    let five: Vec<u8> = (1..=5).flat_map(line).collect();
    End::called(&empty()).hears(&[&five[..], b"F>\r"].concat());
    End::called(&empty()).refuses(&[&five[..], &line(6)].concat(), PROPOSAL_COUNT);
    for malformed in [&b"FA P THEM US ME 6_THEM 5\r"[..], b"FB P\r", b"FF\r", b"FQ\r", b"\r"] {
        End::called(&empty()).refuses(&[&five[..], malformed].concat(), LINE_NOT_ALLOWED);
    }
    End::called(&empty()).refuses(b"F>\r", PROPOSAL_COUNT);
    // DECISIONS 42: right after our FF, and after our transfers.
    let mut end = End::caller(&empty());
    end.say();
    end.refuses(b"F>\r", PROPOSAL_COUNT);
    let mut end = proposed();
    end.hears(b"FS +-\r");
    end.say();
    end.refuses(b"F>\r", PROPOSAL_COUNT);
}

/// 7: "no answer of that line is recorded".
#[test]
fn r7_fs_wrong_in_form_or_count() {
    for wrong in [
        &b"FS\r"[..],
        b"FS \r",
        b"FSX\r",
        b"FS -\r",
        b"FS ---\r",
        b"FS  --\r",
        b"fs -y\r",
        b"FS--\r",
    ] {
        let mut end = proposed();
        end.refuses(wrong, BAD_ANSWER);
        assert_eq!(end.states(), [Waiting; 2]);
    }
    proposed().hears(b"; FS\r\nfs -=  \r\n");
}

/// 8: plain, at the byte from which no valid transfer begins so.
#[test]
fn r8_plain_transfer() {
    let room = plain_table(&[]);
    owed(5, &room, false).refuses(b"\r", BAD_TRANSFER);
    owed(5, &room, false).refuses(b"\x1F", BAD_TRANSFER);
    owed(5, &room, false).refuses(b"title\n", BAD_TRANSFER);
    owed(5, &room, false).refuses(&[b't'; 81], BAD_TRANSFER);
    owed(5, &room, false).hears(&[&[b't'; 80][..], b"\r"].concat());
    owed(5, &room, false).refuses(b"T\rab\x1A  x", BAD_TRANSFER);
    owed(5, &room, false).refuses(b"T\rab\x1A\n", BAD_TRANSFER);
    // DECISIONS 9: a `;` line is a title here. DECISIONS 4: a second LF is part of
    // the title.
    owed(5, &room, false).hears(b"\n; T\rab\x1A\r");
    owed(5, &room, false).refuses(b"\n\n", BAD_TRANSFER);
    owed(5, &room, false).refuses(b"FF\rFF\r\x1A\r\n\n", BYTES_WAIT);
}

/// 8: framed, likewise.
#[test]
fn r8_framed_transfer() {
    let room = packed_table(&[]);
    for wrong in [
        &b"\x02"[..],
        b"\x01\x03",
        b"\x01\x59",
        b"\x01\x05HI\x001",
        b"\x01\x05HIJ",
        b"\x01\x0AH\x00",
        b"\x01\x05HI\x000\x00\x03",
        b"\x01\x05\x1F",
    ] {
        owed(5, &room, true).refuses(wrong, BAD_TRANSFER);
    }
    owed(5, &room, true).hears(b"\n\x01\x05HI\x000\x00\x04\x00");
    owed(5, &room, true).refuses(b"\x01\x06HI\x000\x00", BAD_TRANSFER);
}

/// 9: "checksum wrong"; the message is not kept, its bytes stand in the store.
#[test]
fn r9_checksum() {
    let mut end = owed(5, &packed_table(&[]), true);
    end.refuses(b"\x01\x05HI\x000\x00\x02\x02AB\x04\x7E", BAD_CHECKSUM);
    assert_eq!(end.kept(), []);
    assert_eq!(end.memory.store[..3], *b"AB\0");
}

/// 10: at the store's end, and at the 65,536th byte of a body.
#[test]
fn r10_no_room() {
    let room = |bytes| Buffers::new(8, bytes);
    owed(5, &room(5), false).hears(b"T\r12345\x1A\r");
    let mut end = owed(5, &room(5), false);
    end.refuses(b"T\r123456", STORE_FULL);
    assert_eq!(end.memory.store, b"12345");
    // DECISIONS 20: the block's length is taken, its sixth byte isn't.
    owed(5, &room(5), true).refuses(b"\x01\x05HI\x000\x00\x02\x06123456", STORE_FULL);
    // A body may be longer than announced while there is room.
    owed(5, &room(6), false).hears(b"T\r123456\x1A\r");
    let long = [b"T\r", &vec![b'x'; 65_535][..]].concat();
    owed(5, &room(70_000), false).hears(&[&long[..], b"\x1A\r"].concat());
    owed(5, &room(70_000), false).refuses(&[&long[..], b"x"].concat(), STORE_FULL);
}

/// DECISIONS 20: "So is an 02 after 65,535 bytes": it is taken, and 10 comes at the
/// data byte.
#[test]
fn r10_a_block_after_the_longest_body() {
    let header = b"\x01\x05HI\x000\x00";
    let block = [b"\x02\x00", &[7; 256][..]].concat();
    let last = [b"\x02\xFF", &[7; 255][..]].concat();
    let full = [&header[..], &block.repeat(255), &last].concat();
    let owed = || owed(5, &Buffers::new(8, 70_000), true);
    owed().hears(&[&full[..], b"\x02\x01"].concat());
    owed().refuses(&[&full[..], b"\x02\x01\x07"].concat(), STORE_FULL);
    let sum = (65_535_u32 * 7).to_le_bytes()[0];
    owed().hears(&[&full[..], &[4, sum.wrapping_neg()]].concat());
}

/// DECISIONS 48: a body longer than announced takes the room promised to a later
/// message of the block; that one then gets 10.
#[test]
fn r10_room_taken_by_an_earlier_message() {
    let mut end = End::called(&Buffers::new(8, 10));
    end.hears(b"FB P THEM US ME 1_THEM 5\rFB P THEM US ME 2_THEM 5\rF>\r");
    end.says(b"FS ++\r");
    end.hears(b"T\r1234567\x1A\r");
    end.refuses(b"T\r1234", STORE_FULL);
    assert_eq!(end.memory.store, b"1234567123");
    assert_eq!(end.kept().len(), 1);
}

/// 11: "a byte arrives while bytes wait for give; waiting bytes are dropped".
/// One LF after a CR is dropped also then.
#[test]
fn r11_bytes_wait() {
    let mut end = End::open(CALLED, &empty());
    end.refuses(b"[", BYTES_WAIT);
    let mut end = End::open(CALLED, &empty());
    assert_eq!(end.say_up_to(15), b"[NOD-1-B1FH$]\r>");
    end.refuses(b"\n", BYTES_WAIT);
    // DECISIONS 50: within the same receive; the rest isn't consumed.
    let mut end = End::called(&empty());
    assert_eq!(end.hear(b"FF\rFF\r"), Reply { answer: BYTES_WAIT, place: 0, count: 4 });
    assert_eq!(end.say(), b"");
    let mut end = End::called(&plain_table(&[5]));
    end.hears(b"FF\r\n");
    end.say_up_to(3);
    end.refuses(b"\n", BYTES_WAIT);
    // A `;` line too.
    let mut end = End::called(&plain_table(&[5]));
    end.hears(b"FF\r");
    end.refuses(b";", BYTES_WAIT);
    // 11 before 2: nothing of a long line is read.
    let mut end = End::called(&plain_table(&[5]));
    end.hears(b"FF\r");
    assert_eq!(end.hear(&[b' '; 300]), Reply { answer: BYTES_WAIT, place: 0, count: 1 });
}

/// 12: "nothing consumed, nothing changed", also with no bytes.
#[test]
fn r12_ended() {
    let mut end = End::called(&empty());
    end.refuses(b"\r", LINE_NOT_ALLOWED);
    let memory = end.memory.clone();
    for bytes in [&b""[..], b"\n", b"FF\r"] {
        assert_eq!(end.hear(bytes), Reply { answer: SESSION_ENDED, place: 0, count: 0 });
    }
    assert_eq!(end.memory, memory);
    // DECISIONS 40: an LF after the CR of FQ is not read.
    let mut end = End::caller(&empty());
    end.say();
    assert_eq!(end.hear(b"FQ\r\nFF\r"), Reply::ok(3));
    assert_eq!(end.hear(b"\n"), Reply { answer: SESSION_ENDED, place: 0, count: 0 });
}
