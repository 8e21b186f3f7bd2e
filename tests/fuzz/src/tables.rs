//! Random lent memory: tables, stores, known lists and inboxes, valid or nearly
//! so.

use inputs::random::Random;
use inputs::{at, bid, body_of, byte, call, heading, respelt};
use second::field::{same_bid, AT_MAX, BID_MAX, BODY_END, BODY_MAX, CALL_MAX};
use second::host::{append, Buffers};
use second::layout;
use second::memory::{Envelope, Record, Span, State};
use second::memory::{KNOWN_MAX, MESSAGES_MAX, PARTNERS, RECORDS_MAX, SIZE_MAX};
use second::places;
use second::record::{Form, Kind};
use second::refusal::NO_PLACE;
use second::session::{self, Lent, CALLED};

/// Buffers of a host; one in eight has a fault somewhere, or two or three.
pub fn buffers(random: &mut Random) -> Buffers {
    let places = match random.below(8) {
        0 => 0,
        1 => random.within(1, 3),
        2 => MESSAGES_MAX,
        _ => random.within(4, 20),
    };
    let mut host = Buffers {
        session: filled(random, places::SESSION),
        store: store(random, places),
        ..Buffers::default()
    };
    host.inbox = filled(random, places * places::ENTRY);
    let mail = Mail {
        forms: random.pick(&[&[Form::Plain][..], &[Form::Message, Form::File], &ALL]),
        long: random.once_in(50),
        heavy: random.once_in(20),
    };
    for number in 0..record_count(random) {
        let record = record(random, &mut host, mail, number);
        let mut entry = layout::write_record(&record);
        garble_padding(random, &mut entry);
        host.table.extend(entry);
    }
    know(random, &mut host);
    if random.once_in(8) {
        // More than one: role, sizes and known BIDs are found before records, and
        // of two bad records the first.
        for _ in 0..random.within(1, 3) {
            spoil(random, &mut host);
        }
    }
    host
}

/// Which of several faults open has to find first: bad known BIDs before a bad
/// record, the first of two bad records, a partner that there isn't before a bad record.
pub fn rivals(partner: u8, lent: &Lent<'_>) -> [bool; 3] {
    let place = |lent: &Lent<'_>| session::open(CALLED, 0, lent).err().map(|reply| reply.place);
    match place(lent) {
        Some(NO_PLACE) => {
            let without = place(&Lent { known: &[], ..*lent });
            [without.map_or(false, |place| place < NO_PLACE), false, false]
        }
        Some(first) => {
            let rest = &lent.table[places::RECORD * (usize::from(first) + 1)..];
            let second = place(&Lent { table: rest, ..*lent }).is_some();
            [false, second, usize::from(partner) >= PARTNERS]
        }
        None => [false; 3],
    }
}

/// Open was refused at a record that is bad for a state alone: in the session's column,
/// and in another.
pub fn bad_states(partner: u8, lent: &Lent<'_>) -> [bool; 2] {
    let refused = session::open(CALLED, partner, lent).err().filter(|reply| reply.place < NO_PLACE);
    let place = refused.map(|reply| usize::from(reply.place) * places::RECORD);
    let states = place.map_or(&[][..], |at| &lent.table[at..][..PARTNERS]);
    let bad = |column: usize| states[column] > State::Declined as u8;
    let mut columns = (0..states.len()).filter(|&column| bad(column)).peekable();
    let own = columns.peek() == Some(&usize::from(partner));
    [own, columns.next().is_some() && !own]
}

/// Open was refused at a record whose BID stands earlier in another case alone.
pub fn is_twin(lent: &Lent<'_>) -> bool {
    let bid = |entry: &[u8]| layout::read_record(entry).map(|record| record.envelope.bid);
    let refused = session::open(CALLED, 0, lent).err().filter(|reply| reply.place < NO_PLACE);
    let place = refused.map_or(0, |reply| usize::from(reply.place));
    let mut earlier = lent.table.chunks(places::RECORD).take(place).filter_map(bid);
    let own = lent.table.chunks(places::RECORD).nth(place).and_then(bid);
    own.map_or(false, |own| earlier.any(|other| other != own && same_bid(&other, &own)))
}

const ALL: [Form; 3] = [Form::Plain, Form::Message, Form::File];

fn filled(random: &mut Random, length: usize) -> Vec<u8> {
    let mut bytes = vec![0; length];
    if random.once_in(2) {
        random.fill(&mut bytes);
    }
    bytes
}

/// The inbox store: room for a few messages, at times none, at times for the
/// longest body or for a message in every place.
fn store(random: &mut Random, places: usize) -> Vec<u8> {
    let length = match random.below(64) {
        32.. if places == MESSAGES_MAX => random.within(10_000, 30_000),
        0 => 0,
        1 => random.within(65_530, 65_545),
        2 => random.within(100_000, 140_000),
        3 => random.within(10_000, 30_000),
        4..=15 => random.within(1, 200),
        _ => random.within(200, 8_000),
    };
    filled(random, length)
}

fn record_count(random: &mut Random) -> usize {
    match random.below(16) {
        0 | 1 => 0,
        2 => random.within(60, RECORDS_MAX),
        3 => RECORDS_MAX,
        4 | 5 => random.within(10, 30),
        _ => random.within(1, 9),
    }
}

/// What a table's records are like: of these forms, some with the longest bodies; or all
/// waiting, and most announced as the largest.
#[derive(Clone, Copy)]
struct Mail<'a> {
    forms: &'a [Form],
    long: bool,
    heavy: bool,
}

/// A valid record, its heading and body put into the stores.
fn record(random: &mut Random, host: &mut Buffers, mail: Mail<'_>, number: usize) -> Record {
    let form = random.pick(mail.forms);
    let body = body(random, form == Form::Plain, mail.long);
    let (title, name) = match form {
        Form::File => (random.once_in(3), true),
        Form::Plain | Form::Message => (true, random.once_in(3)),
    };
    let size = match mail.heavy && !random.once_in(8) {
        true => SIZE_MAX - random.below(3) as u32,
        false => size(random, body.len()),
    };
    Record {
        states: std::array::from_fn(|_| match mail.heavy {
            true => State::Waiting,
            false => state(random),
        }),
        envelope: Envelope {
            form,
            kind: random.pick(&[Kind::Private, Kind::Bulletin]),
            from: call(random),
            at: at(random),
            to: call(random),
            bid: table_bid(random, number),
        },
        size,
        title: heading_span(random, &mut host.titles, title),
        name: heading_span(random, &mut host.names, name),
        body: append(&mut host.bodies, &body),
    }
}

/// A BID that no other record has: its last two bytes are the record's number.
fn table_bid(random: &mut Random, number: usize) -> Vec<u8> {
    let mut bid = bid(random);
    bid.truncate(BID_MAX - 2);
    bid.extend([b'0' + (number / 8) as u8, b'0' + (number % 8) as u8]);
    bid
}

fn heading_span(random: &mut Random, store: &mut Vec<u8>, needed: bool) -> Span {
    if needed {
        return append(store, &heading(random));
    }
    // DECISIONS 55: an empty one lies within its store too.
    Span { start: random.below(store.len() + 1), length: 0 }
}

fn body(random: &mut Random, plain: bool, long: bool) -> Vec<u8> {
    let length = match random.below(16) {
        0..=3 if long => random.pick(&[BODY_MAX - 1, BODY_MAX]),
        0 => 0,
        1 => random.within(254, 258),
        2 => random.within(510, 514),
        _ => random.within(1, 60),
    };
    let mut body = body_of(random, length, plain);
    if length > 0 && random.once_in(8) {
        body[0] = b'\n';
    }
    body
}

/// An announced size: about the body's, or one that matters for the block.
fn size(random: &mut Random, body: usize) -> u32 {
    match random.below(8) {
        0 => random.pick(&[0, 1, 10_238, 10_239, 10_240, 10_241, SIZE_MAX]),
        1 => random.below(SIZE_MAX as usize + 1) as u32,
        2 | 3 => random.within(1_000, 6_000) as u32,
        _ => body as u32,
    }
}

/// For one partner.
fn state(random: &mut Random) -> State {
    match random.below(6) {
        0 => State::Forwarded,
        1 => State::Declined,
        _ => State::Waiting,
    }
}

/// "A field is one byte for its length, then its bytes, then bytes that don't
/// matter".
fn garble_padding(random: &mut Random, entry: &mut [u8]) {
    if random.once_in(2) {
        return;
    }
    for (start, limit) in [
        (places::RECORD_FROM, CALL_MAX),
        (places::RECORD_AT, AT_MAX),
        (places::RECORD_TO, CALL_MAX),
        (places::RECORD_BID, BID_MAX),
    ] {
        let length = usize::from(entry[start]);
        random.fill(&mut entry[start + 1 + length..start + 1 + limit]);
    }
}

/// Known BIDs: a few or the most, at times those of our own records.
fn know(random: &mut Random, host: &mut Buffers) {
    let count = match random.below(32) {
        0 => KNOWN_MAX,
        1..=15 => 0,
        _ => random.within(1, 12),
    };
    for _ in 0..count {
        let own = !host.table.is_empty() && random.once_in(8);
        let bid = if own {
            let place = random.below(host.table.len() / places::RECORD);
            let entry = &host.table[place * places::RECORD..][..places::RECORD];
            let own = layout::read_record(entry).expect("a valid record").envelope.bid;
            match random.once_in(2) {
                true => respelt(random, &own),
                false => own,
            }
        } else {
            bid(random)
        };
        host.know(&bid);
    }
}

/// One fault: a size, a known BID, or a record or what it points to.
fn spoil(random: &mut Random, host: &mut Buffers) {
    match random.below(20) {
        0 => resize(random, &mut host.session),
        1 => resize(random, &mut host.table),
        2 => resize(random, &mut host.known),
        3 => resize(random, &mut host.inbox),
        4 => host.inbox = filled(random, (MESSAGES_MAX + 1) * places::ENTRY),
        5 => (0..=KNOWN_MAX).for_each(|_| host.know(b"1")),
        6 if host.known.len() >= places::KNOWN => {
            let entry = random.below(host.known.len() / places::KNOWN) * places::KNOWN;
            host.known[entry + random.below(3)] = byte(random);
        }
        7 => one_more(host),
        8 => cut(random, &mut host.titles),
        9 => cut(random, &mut host.names),
        10 => cut(random, &mut host.bodies),
        11 if random.once_in(2) => change(random, &mut host.names),
        11 => change(random, &mut host.titles),
        12 if !host.bodies.is_empty() => {
            let place = random.below(host.bodies.len());
            host.bodies[place] = BODY_END;
        }
        _ if host.table.len() >= places::RECORD => spoil_record(random, host),
        _ => {}
    }
}

fn resize(random: &mut Random, buffer: &mut Vec<u8>) {
    match random.once_in(2) {
        true => buffer.push(0),
        false => drop(buffer.pop().is_some()),
    }
}

fn cut(random: &mut Random, store: &mut Vec<u8>) {
    store.truncate(store.len().saturating_sub(random.within(1, 20)));
}

fn change(random: &mut Random, store: &mut [u8]) {
    if !store.is_empty() {
        store[random.below(store.len())] = byte(random);
    }
}

/// Records up to one more than there may be.
fn one_more(host: &mut Buffers) {
    let entry: Vec<u8> = host.table.iter().copied().take(places::RECORD).collect();
    if !entry.is_empty() {
        while host.table.len() <= RECORDS_MAX * places::RECORD {
            host.table.extend_from_slice(&entry);
        }
    }
}

/// A byte of a record changed, its spans moved, or its BID copied.
fn spoil_record(random: &mut Random, host: &mut Buffers) {
    let count = host.table.len() / places::RECORD;
    let entry = random.below(count) * places::RECORD;
    let other = random.below(count) * places::RECORD;
    match random.below(5) {
        // A length, a form, a high byte of a size or a start: the bytes that decide most.
        0 => {
            let offset = random.pick(&[
                places::RECORD_FORM,
                places::RECORD_TYPE,
                places::RECORD_FROM,
                places::RECORD_AT,
                places::RECORD_TO,
                places::RECORD_BID,
                places::RECORD_SIZE_FIELD + 2,
                places::RECORD_SIZE_FIELD + 3,
                places::RECORD_TITLE + 2,
                places::RECORD_TITLE_LEN,
                places::RECORD_NAME + 2,
                places::RECORD_NAME_LEN,
                places::RECORD_BODY + 2,
                places::RECORD_BODY_LEN,
                places::RECORD_BODY_LEN + 1,
            ]);
            host.table[entry + offset] = random.pick(&[0, 1, 2, 3, 6, 7, 12, 13, 38, 39, 80, 81]);
        }
        1 => {
            let (from, to) = (other + places::RECORD_BID, entry + places::RECORD_BID);
            host.table.copy_within(from..from + 1 + BID_MAX, to);
            if random.once_in(2) {
                let field = &mut host.table[to + 1..][..BID_MAX];
                let bid = respelt(random, field);
                field.copy_from_slice(&bid);
            }
        }
        2 => {
            let column = random.below(PARTNERS);
            host.table[entry + column] = random.pick(&[2, 3, 3, 255]);
        }
        3 => {
            let offset = random.below(places::RECORD);
            host.table[entry + offset] = host.table[entry + offset].wrapping_add(1);
        }
        _ => {
            let offset = random.below(places::RECORD);
            host.table[entry + offset] = byte(random);
        }
    }
}
