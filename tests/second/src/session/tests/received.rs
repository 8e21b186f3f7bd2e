//! What stands in the inbox and its store, and when; LF between units.

use super::end::{packed_table, plain_table, End};
use crate::host::Buffers;
use crate::places;
use crate::refusal::{BAD_TRANSFER, BYTES_WAIT, LINE_NOT_ALLOWED, NOT_SID};
use crate::session::Reply;

/// "Inbox store bytes past the last kept message hold the body bytes received so
/// far of the message under way, or of one that failed; the rest is untouched".
#[test]
fn body_bytes_stand_in_the_store_as_they_come() {
    let mut buffers = Buffers::new(8, 12);
    buffers.store = b"............".to_vec();
    let mut end = End::called(&buffers);
    end.hears(b"FB P THEM US ME 1_THEM 3\rFB P THEM US ME 2_THEM 3\rF>\r");
    end.say();
    end.hears(b"T\rab");
    assert_eq!(end.memory.store, b"ab..........");
    assert_eq!(end.session.kept(), 0);
    end.hears(b"c\x1A ");
    assert_eq!(end.session.kept(), 0);
    end.hears(b"\r");
    assert_eq!(end.session.kept(), 1);
    end.hears(b"T\rde");
    assert_eq!(end.memory.store, b"abcde.......");
    end.refuses(b"\x1Ax", BAD_TRANSFER);
    assert_eq!(end.memory.store, b"abcde.......");
    assert_eq!(end.kept().len(), 1);
}

/// "The next message uses that room again", here that of an open after a message
/// that failed; places past the count stand as they did.
#[test]
fn the_room_of_a_failed_message_is_used_again() {
    let mut end = End::called(&plain_table(&[]));
    end.hears(b"FB P THEM US ME 1_THEM 3\rFB P THEM US ME 2_THEM 3\rF>\r");
    end.say();
    end.hears(b"T\rabc\x1A\rU\rdef");
    let mut buffers = plain_table(&[]);
    buffers.store = end.memory.store.clone();
    let first = end.memory.inbox[0].clone().expect("kept");
    buffers.inbox[..places::ENTRY].copy_from_slice(&crate::layout::write_message(&first));
    let mut end = End::called(&buffers);
    assert_eq!(end.memory.store[..7], *b"abcdef\0");
    end.hears(b"FB P THEM US ME 1_THEM 3\rF>\r");
    // The entry past the count is no copy: the message is taken.
    end.says(b"FS +\r");
    end.hears(b"T\rx");
    assert_eq!(end.memory.store[..7], *b"xbcdef\0");
    assert_eq!(end.memory.inbox[0], Some(first));
}

/// DECISIONS 3 to 5: one LF, directly after the CR in the received stream,
/// whatever is given in between; none after a framed transfer.
#[test]
fn one_lf_is_dropped_after_the_cr_of_a_line_or_plain_transfer() {
    let mut end = End::called(&plain_table(&[]));
    end.hears(b"\n; x\r\nFB P THEM US ME 1_THEM 3\r\nF>\r");
    end.says(b"FS +\r");
    end.hears(b"\nT\ra\x1A\r");
    end.says(b"FF\r");
    end.hears(b"\nFB P THEM US ME 2_THEM 3\r\nF>\r\n");
    end.says(b"FS +\r");
    end.hears(b"T\rb\x1A \r\n");
    assert_eq!(end.session.kept(), 2);
    end.refuses(b"\n", BYTES_WAIT);
    // Two LFs: the second belongs to the next line.
    let mut end = End::called(&plain_table(&[]));
    end.refuses(b"\n\nFF\r", LINE_NOT_ALLOWED);
    // A dropped LF is the only one, also where it comes alone.
    let mut end = End::called(&plain_table(&[]));
    end.hears(b"\n");
    end.refuses(b"\nFF\r", LINE_NOT_ALLOWED);
}

#[test]
fn an_lf_after_a_framed_transfer_is_ordinary() {
    // Data F3 makes the checksum 0D, which closes no plain transfer.
    let transfer = b"\x01\x05HI\x000\x00\x02\x01\xF3\x04\x0D";
    let mut end = End::called_framed(&packed_table(&[]));
    end.hears(b"FA P THEM US ME 1_THEM 3\rFA P THEM US ME 2_THEM 3\rF>\r\n");
    end.says(b"FS ++\r");
    end.hears(transfer);
    end.refuses(b"\n", BAD_TRANSFER);
    let mut end = End::called_framed(&packed_table(&[]));
    end.hears(b"FA P THEM US ME 1_THEM 3\rF>\r\n");
    end.says(b"FS +\r");
    end.hears(transfer);
    end.says(b"FF\r");
    end.refuses(b"\nFQ\r", LINE_NOT_ALLOWED);
}

/// "A line that begins with `;` is ignored wherever a line is awaited".
#[test]
fn comments_everywhere() {
    let mut end = End::open(1, &plain_table(&[5]));
    end.hears(b";\r; x\r[TST-1-F$]\r;y\rhi\r;z>\r>\r");
    end.say();
    end.hears(b"; before FS\r\nFS +\r\n");
    end.say();
    end.hears(b"; before a turn\rFB P THEM US ME 1_THEM 3\r; inside\r\nF>\r");
    end.say();
    end.hears(b"; a title\r; a body\r\x1A\r");
    assert_eq!(end.kept()[0].heading, b"; a title");
    end.says(b"FF\r");
    end.hears(b"; between\r");
    end.hears(b"FQ\r");
}

/// "Receiving no bytes on a live session answers 0 and changes nothing."
#[test]
fn no_bytes_change_nothing() {
    let mut end = End::open(0, &plain_table(&[5]));
    let (memory, waiting) = (end.memory.clone(), end.session.waiting());
    assert_eq!(end.hear(b""), Reply::ok(0));
    assert_eq!((&end.memory, end.session.waiting()), (&memory, waiting));
}

/// "exactly if a lent size isn't the one open kept": 1 with place 255 and count
/// 0, before 12, and nothing changes.
#[test]
fn other_sizes_get_1() {
    let mut end = End::open(0, &plain_table(&[5]));
    let sizes = end.memory.sizes;
    let one = |change: fn(&mut crate::memory::Sizes) -> &mut usize| {
        let mut other = sizes;
        *change(&mut other) += 1;
        other
    };
    let changed = [
        one(|s| &mut s.session),
        one(|s| &mut s.table),
        one(|s| &mut s.titles),
        one(|s| &mut s.names),
        one(|s| &mut s.bodies),
        one(|s| &mut s.known),
        one(|s| &mut s.inbox),
        one(|s| &mut s.store),
    ];
    let bad = Reply::BAD_BUFFERS;
    for other in changed {
        end.memory.sizes = other;
        let mut buffer = *b"....";
        assert_eq!(end.session.receive(&mut end.memory, b"x"), bad);
        assert_eq!(end.session.give(&end.memory, &mut buffer, 0), bad);
        assert_eq!(&buffer, b"....");
    }
    end.memory.sizes = sizes;
    end.says(b"[NOD-1-B1FH$]\r>\r");
    end.refuses(b"x\r", NOT_SID);
    // DECISIONS 51: also on a session that has ended.
    end.memory.sizes = changed[1];
    assert_eq!(end.session.receive(&mut end.memory, b""), bad);
    assert_eq!(end.session.give(&end.memory, &mut [0; 4], 0), bad);
}
