//! Open: 1 with the place of the first bad record, or 255.

use super::end::{plain_table, state_at, CALLED, CALLER, PARTNER};
use crate::host::Buffers;
use crate::memory::{KNOWN_MAX, MESSAGES_MAX, PARTNERS, RECORDS_MAX};
use crate::places;
use crate::record::Form;
use crate::refusal::{self, NO_PLACE};
use crate::session::{open, Reply};

/// The place of a refused open, `None` if it is accepted.
fn place(role: u8, buffers: &Buffers) -> Option<u8> {
    place_for(PARTNER, role, buffers)
}

fn place_for(partner: u8, role: u8, buffers: &Buffers) -> Option<u8> {
    let refused = open(role, partner, &buffers.lent()).err()?;
    assert_eq!(refused, Reply { answer: refusal::BAD_MEMORY, place: refused.place, count: 0 });
    Some(refused.place)
}

/// The place after a change to a table of three records.
fn changed(change: impl Fn(&mut Buffers)) -> Option<u8> {
    let mut buffers = plain_table(&[5, 5, 5]);
    change(&mut buffers);
    place(CALLED, &buffers)
}

fn shorten(buffer: &mut Vec<u8>) {
    buffer.pop();
}

/// "partner 8 or more gets 1 with place 255, tested first": before a bad record, whose
/// place is another.
#[test]
fn partners_are_0_to_7_tested_first() {
    let good = plain_table(&[5]);
    let mut bad = plain_table(&[5, 5]);
    bad.table[state_at(1, 2)] = 3;
    for partner in 0..=255 {
        let (fine, worse) = if usize::from(partner) < PARTNERS {
            (None, Some(1))
        } else {
            (Some(NO_PLACE), Some(NO_PLACE))
        };
        assert_eq!(place_for(partner, CALLED, &good), fine, "{partner}");
        assert_eq!(place_for(partner, CALLED, &bad), worse, "{partner}");
        assert_eq!(place_for(partner, 2, &good), Some(NO_PLACE), "{partner}");
    }
}

/// All eight columns are judged, whoever the session is with.
#[test]
fn a_state_over_2_is_bad_in_every_column() {
    for (column, partner) in (0..8).flat_map(|column| (0..8).map(move |p| (column, p))) {
        for (state, bad) in [(0, None), (1, None), (2, None), (3, Some(1)), (255, Some(1))] {
            let mut buffers = plain_table(&[5, 5, 5]);
            buffers.table[state_at(1, column)] = state;
            assert_eq!(place_for(partner, CALLER, &buffers), bad, "{column} {partner} {state}");
        }
    }
}

#[test]
fn roles_are_0_and_1() {
    let places: Vec<Option<u8>> = (0..4).map(|role| place(role, &plain_table(&[5]))).collect();
    assert_eq!(places, [None, None, Some(NO_PLACE), Some(NO_PLACE)]);
}

/// "Sizes are bad exactly if a limit above is passed, a buffer of entries holds no
/// whole number of them, or session memory hasn't its fixed size".
#[test]
fn sizes_are_limited() {
    for (records, bad) in
        [(0, None), (RECORDS_MAX - 1, None), (RECORDS_MAX, None), (RECORDS_MAX + 1, Some(NO_PLACE))]
    {
        assert_eq!(place(CALLED, &plain_table(&vec![5; records])), bad);
    }
    for (known, bad) in [(0, None), (1, None), (KNOWN_MAX, None), (KNOWN_MAX + 1, Some(NO_PLACE))] {
        let know = |buffers: &mut Buffers| (0..known).for_each(|_| buffers.know(b"1_US"));
        assert_eq!(changed(know), bad);
    }
    for (places, bad) in
        [(0, None), (1, None), (MESSAGES_MAX, None), (MESSAGES_MAX + 1, Some(NO_PLACE))]
    {
        assert_eq!(changed(|buffers| buffers.inbox = vec![0; places * places::ENTRY]), bad);
    }
    assert_eq!(changed(|buffers| shorten(&mut buffers.table)), Some(NO_PLACE));
    assert_eq!(changed(|buffers| buffers.known.push(1)), Some(NO_PLACE));
    assert_eq!(changed(|buffers| shorten(&mut buffers.inbox)), Some(NO_PLACE));
    assert_eq!(changed(|buffers| shorten(&mut buffers.session)), Some(NO_PLACE));
    assert_eq!(changed(|buffers| buffers.session.push(0)), Some(NO_PLACE));
    assert_eq!(changed(|buffers| buffers.store.clear()), None);
}

/// "one outside the BID rule below is a bad buffer"
#[test]
fn known_bids_obey_the_bid_rule() {
    for (bid, bad) in [
        (&b"1"[..], None),
        (b"123456789012", None),
        (b"\xFF", None),
        (b"", Some(NO_PLACE)),
        (b"1 2", Some(NO_PLACE)),
        (b"1234567890123", Some(NO_PLACE)),
    ] {
        let know = |buffers: &mut Buffers| {
            buffers.know(b"fine");
            buffers.know(bid);
        };
        assert_eq!(changed(know), bad, "{}", bid.escape_ascii());
    }
}

/// "first bad record, from 0"; 255 goes before.
#[test]
fn the_first_bad_record_is_the_place() {
    for record in 0..3 {
        let state = |buffers: &mut Buffers| buffers.table[state_at(record, PARTNER)] = 3;
        assert_eq!(changed(state), Some(record as u8));
    }
    let two = |buffers: &mut Buffers| {
        buffers.table[state_at(1, 0)] = 3;
        buffers.table[state_at(2, PARTNER)] = 3;
    };
    assert_eq!(changed(two), Some(1));
    let with_known = |buffers: &mut Buffers| {
        buffers.table[state_at(0, 0)] = 3;
        buffers.know(b"");
    };
    assert_eq!(changed(with_known), Some(NO_PLACE));
    let mut buffers = plain_table(&[5]);
    buffers.table[state_at(0, 0)] = 3;
    assert_eq!(place(7, &buffers), Some(NO_PLACE));
}

/// DECISIONS 57: "Of three records with one BID the second is the place. Copies
/// within the known list, or of a table BID, are allowed."
#[test]
fn of_two_records_with_one_bid_the_later_is_bad() {
    let bid = |buffers: &mut Buffers, record: usize, digit: u8| {
        buffers.table[places::RECORD * record + places::RECORD_BID + 1] = digit
    };
    assert_eq!(changed(|buffers| bid(buffers, 2, b'1')), Some(2));
    assert_eq!(changed(|buffers| bid(buffers, 1, b'1')), Some(1));
    assert_eq!(changed(|buffers| (1..3).for_each(|record| bid(buffers, record, b'1'))), Some(1));
    let known = |buffers: &mut Buffers| (0..3).for_each(|_| buffers.know(b"1_US"));
    assert_eq!(changed(known), None);
}

/// "so a table with `12_ab` and `12_AB` now gets 1 at the later record"
#[test]
fn of_two_records_with_one_bid_in_another_case_the_later_is_bad() {
    let bids = |buffers: &mut Buffers, spelt: [&[u8; 5]; 3]| {
        for (entry, bid) in buffers.table.chunks_mut(places::RECORD).zip(spelt) {
            entry[places::RECORD_BID..][..6].copy_from_slice(&[&[5], &bid[..]].concat());
        }
    };
    for (spelt, place) in [
        ([b"12_ab", b"12_AB", b"12_Ab"], Some(1)),
        ([b"12_ab", b"12_cd", b"12_aB"], Some(2)),
        ([b"12_a[", b"12_a{", b"12_a_"], None),
        ([b"12_a@", b"12_a`", b"12_a "], Some(2)), // a space is no BID byte
        ([b"12_a^", b"12_a~", b"12_a>"], None),
        ([b"12_a\xC9", b"12_a\xE9", b"12_ai"], None),
    ] {
        assert_eq!(changed(|buffers| bids(buffers, spelt)), place, "{spelt:?}");
    }
}

/// One wrong byte of a record at a time: offset, value, whether it is bad.
#[test]
fn record_bytes() {
    for (offset, value, bad) in [
        (0, 1, false),
        (0, 2, false),
        (0, 3, true),
        (PARTNERS - 1, 2, false),
        (PARTNERS - 1, 3, true),
        (places::RECORD_FORM, 1, false),
        (places::RECORD_FORM, 2, true), // form 2 has no name here
        (places::RECORD_FORM, 3, true),
        (places::RECORD_TYPE, b'B', false),
        (places::RECORD_TYPE, b'p', true),
        (places::RECORD_FROM, 0, true),
        (places::RECORD_FROM, 7, true),
        (places::RECORD_FROM + 1, b'@', true),
        (places::RECORD_FROM + 1, 0x7F, true),
        (places::RECORD_AT, 0, true),
        (places::RECORD_AT, 39, true),
        (places::RECORD_AT + 1, b'.', true),
        (places::RECORD_TO, 0, true),
        (places::RECORD_TO + 1, b'.', true),
        (places::RECORD_BID, 0, true),
        (places::RECORD_BID, 13, true),
        (places::RECORD_BID + 1, 0x20, true),
        (places::RECORD_BID + 1, 0xFF, false),
        (places::RECORD_SIZE_FIELD + 3, 1, true), // 16,777,221 announced
        (places::RECORD_SIZE_FIELD + 2, 15, false), // 983,045
        (places::RECORD_SIZE_FIELD + 2, 16, true), // 1,048,581
        (places::RECORD_TITLE + 3, 1, true),      // the title starts far outside
        (places::RECORD_TITLE_LEN, 0, true),
        (places::RECORD_TITLE_LEN, 81, true),
        (places::RECORD_NAME_LEN, 1, true), // a name where the store has none
        (places::RECORD_NAME, 1, true),
        (places::RECORD_BODY_LEN + 1, 1, true),
    ] {
        let change = |buffers: &mut Buffers| buffers.table[places::RECORD + offset] = value;
        assert_eq!(changed(change), bad.then_some(1), "{offset} {value}");
    }
}

#[test]
fn headings_and_bodies_in_their_stores() {
    // Titles are T1T2T3, bodies `text\r` three times.
    assert_eq!(changed(|buffers| buffers.titles[2] = 0x1F), Some(1));
    assert_eq!(changed(|buffers| buffers.titles[2] = 0xFF), None);
    assert_eq!(changed(|buffers| buffers.bodies[5] = 0x1A), Some(1));
    assert_eq!(changed(|buffers| buffers.bodies[5] = 0x00), None);
    assert_eq!(changed(|buffers| shorten(&mut buffers.titles)), Some(2));
    assert_eq!(changed(|buffers| shorten(&mut buffers.bodies)), Some(2));
    assert_eq!(changed(|buffers| buffers.titles.push(0)), None);
    // 0x1A is allowed in a packed body.
    let packed = |buffers: &mut Buffers| {
        buffers.bodies[5] = 0x1A;
        buffers.table[places::RECORD + places::RECORD_FORM] = Form::Message as u8;
    };
    assert_eq!(changed(packed), None);
}
