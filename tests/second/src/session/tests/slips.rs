//! "Easy slips to shut out", each one where it would show.

use super::end::{packed_table, plain_table, proposals, transfers, End};
use crate::memory::State::{Forwarded, Waiting};
use crate::places;
use crate::refusal::{BAD_TRANSFER, BYTES_WAIT, LINE_NOT_ALLOWED, PROPOSAL_COUNT, WRONG_BLOCK_SUM};

/// An end whose two records are accepted and sent, so many bytes of the
/// transfers given.
fn sent(given: usize) -> End {
    let mut end = End::caller(&plain_table(&[5, 5]));
    end.says(&[b"[NOD-1-B1FH$]\r", &proposals(&[(1, 5), (2, 5)])[..]].concat());
    end.hears(b"FS ++\r");
    assert_eq!(end.say_up_to(given).len(), given);
    end
}

/// "Marking at the last byte sent, or at the partner's first FB line instead of
/// its F>."
#[test]
fn marked_at_the_end_of_the_partners_turn_and_not_before() {
    let all = transfers(&[1, 2]).len();
    let mut end = sent(all);
    assert_eq!(end.states(), [Waiting; 2]);
    end.hears(b"FB P THEM US ME 1_THEM 5\r");
    assert_eq!(end.states(), [Waiting; 2]);
    end.hears(b"F>");
    assert_eq!(end.states(), [Waiting; 2]);
    end.hears(b"\r");
    assert_eq!(end.states(), [Forwarded; 2]);
}

#[test]
fn marked_by_ff_at_its_cr() {
    let mut end = sent(transfers(&[1, 2]).len());
    end.hears(b"FF");
    assert_eq!(end.states(), [Waiting; 2]);
    end.hears(b"\r");
    assert_eq!(end.states(), [Forwarded; 2]);
}

/// DECISIONS 45: "A turn of nothing but copies marks too", and the mark "stands if
/// the partner's transfers after it fail".
#[test]
fn marked_by_a_turn_of_copies_and_by_one_that_fails_later() {
    let mut end = sent(transfers(&[1, 2]).len());
    end.hears(b"FB P THEM US ME 1_US 5\rF>\r");
    assert_eq!(end.states(), [Forwarded; 2]);
    end.says(b"FS -\rFF\r");
    let mut end = sent(transfers(&[1, 2]).len());
    end.hears(b"FB P THEM US ME 1_THEM 5\rF>\r");
    end.says(b"FS +\r");
    end.refuses(b"T\x02", BAD_TRANSFER);
    assert_eq!(end.states(), [Forwarded; 2]);
}

/// "Marking on FQ sent straight after our transfers."
#[test]
fn fq_straight_after_our_transfers_marks_nothing() {
    let mut end = sent(transfers(&[1, 2]).len());
    end.refuses(b"FQ\r", LINE_NOT_ALLOWED);
    assert_eq!(end.states(), [Waiting; 2]);
}

/// A turn that comes before the link has taken the whole of our transfers.
#[test]
fn a_turn_before_our_last_byte_marks_nothing() {
    let all = transfers(&[1, 2]).len();
    for given in 0..all {
        let mut end = sent(given);
        end.refuses(b"F", BYTES_WAIT);
        assert_eq!(end.states(), [Waiting; 2]);
    }
}

/// A turn that isn't valid marks nothing: a wrong line, `F>` alone, a sixth
/// proposal, a wrong checksum.
#[test]
fn a_turn_that_is_not_whole_and_valid_marks_nothing() {
    let proposal = b"FB P THEM US ME 1_THEM 5\r";
    let all = transfers(&[1, 2]).len();
    for (turn, answer) in [
        (b"F>\r".to_vec(), PROPOSAL_COUNT),
        (b"FX\r".to_vec(), LINE_NOT_ALLOWED),
        (proposal.repeat(6), PROPOSAL_COUNT),
        ([&proposal[..], b"FF\r"].concat(), LINE_NOT_ALLOWED),
        ([&proposal[..], b"FQ\r"].concat(), LINE_NOT_ALLOWED),
        ([&proposal[..], b"F> 01\r"].concat(), WRONG_BLOCK_SUM),
    ] {
        let mut end = sent(all);
        end.refuses(&turn, answer);
        assert_eq!(end.states(), [Waiting; 2]);
    }
}

/// "Dropping a body's first LF because a CR stood before it."
#[test]
fn a_body_may_begin_with_lf() {
    let mut end = End::called(&plain_table(&[]));
    end.hears(b"FB P THEM US ME 1_THEM 5\r\nFB P THEM US ME 2_THEM 5\r\nF>\r");
    end.says(b"FS ++\r");
    // The first LF is that of `F>`, the second the body's; the third follows the
    // CR that closes the transfer, the fourth is a body's again.
    end.hears(b"\nT\r\nA\x1A\r\nU\r\n\x1A\r\n");
    let bodies: Vec<Vec<u8>> = end.kept().into_iter().map(|kept| kept.body).collect();
    assert_eq!(bodies, [&b"\nA"[..], b"\n"]);
    end.says(b"FF\r");
    // Of ours likewise.
    let mut buffers = plain_table(&[5]);
    buffers.bodies = b"\nabc\n".to_vec();
    let mut end = End::called(&buffers);
    end.hears(b"FF\r");
    end.says(&proposals(&[(1, 5)]));
    end.hears(b"FS +\r\n");
    end.says(b"T1\r\nabc\n\x1A\r");
}

/// "Stopping the block before the message that overruns." 01: "Announced 1345,
/// 5346, 8548, 1: three proposed. 10239, 1, 1: two."
#[test]
fn the_message_that_overruns_is_still_in() {
    for (sizes, proposed) in [
        (&[1345, 5346, 8548, 1][..], 3),
        (&[10_239, 1, 1], 2),
        (&[10_240, 1], 1),
        (&[999_999, 1], 1),
        (&[0, 0, 0, 0, 0, 0], 5),
    ] {
        let mut end = End::called(&plain_table(sizes));
        end.hears(b"FF\r");
        let block: Vec<(usize, u32)> = (1..).zip(sizes.iter().copied()).take(proposed).collect();
        end.says(&proposals(&block));
    }
}

/// "Folding or stripping bytes from 0x80 in a title or BID."
#[test]
fn bytes_from_0x80_go_through_unchanged() {
    let bid = b"\xE9\xC9\x80\xFF_F6FBB";
    let title = b"\xC9t\xE9 \x80\xFF \xA0";
    let mut end = End::called(&plain_table(&[]));
    let proposal = [b"FB P THEM US ME ", &bid[..], b" 3\rF>\r"].concat();
    end.hears(&proposal);
    end.says(b"FS +\r");
    end.hears(&[&title[..], b"\r\x80\xFFa\x1A\r"].concat());
    let kept = &end.kept()[0];
    assert_eq!((&kept.envelope.bid[..], &kept.heading[..]), (&bid[..], &title[..]));
    assert_eq!(kept.body, b"\x80\xFFa");
    end.says(b"FF\r");
    // The same BID is a copy; one that differs in the bit that folding clears is
    // not.
    end.hears(&proposal);
    end.says(b"FS -\rFF\r");
    end.hears(b"FB P THEM US ME \xC9\xC9\x80\xFF_F6FBB 3\rF>\r");
    end.says(b"FS +\r");
}

#[test]
fn our_bytes_from_0x80_go_out_unchanged() {
    let mut buffers = packed_table(&[5]);
    buffers.titles = b"\xE9\xFF".to_vec();
    buffers.table[places::RECORD_BID + 1] = 0xE9;
    let mut end = End::called_framed(&buffers);
    end.hears(b"FF\r");
    end.says(b"FA P US THEM YOU \xE9_US 5\rF>\r");
    end.hears(b"FS +\r");
    end.says(b"\x01\x05\xE9\xFF\x000\x00\x02\x05text\r\x04\x2E");
}
