//! Pairs of nodes to start with: small ones for every pair of cuts, and random ones.

use crate::node::{Node, Room};
use inputs::random::Random;
use inputs::{at, bid, body_of, call, heading};
use second::field::{BID_MAX, BODY_MAX};
use second::host::Letter;
use second::memory::{Envelope, State, MESSAGES_MAX, PARTNERS, RECORDS_MAX};
use second::record::{Form, Kind};

/// "`=` if the size is over 65,535"

// ---------------------------------------------------------------- small

/// A small pair of nodes, and the room that each is lent before the last meeting.
pub struct Small {
    pub said: &'static str,
    pub nodes: [Node; 2],
    pub room: Room,
}

const ROOMY: Room = Room { places: MESSAGES_MAX, bytes: 99 };
/// Room for the announced bytes of one letter, and not for the third.
const TIGHT: Room = Room { places: 1, bytes: 2 };

/// A letter with the shortest fields, of which two bytes are announced.
fn short(form: Form, bid: &[u8], body: &[u8]) -> Letter {
    Letter {
        envelope: Envelope {
            form,
            kind: Kind::Private,
            from: b"A".to_vec(),
            at: b"B".to_vec(),
            to: b"C".to_vec(),
            bid: bid.to_vec(),
        },
        size: 2,
        heading: b"T".to_vec(),
        body: body.to_vec(),
    }
}

fn node(letters: Vec<Letter>) -> Node {
    let states = vec![State::Waiting; letters.len()];
    Node { letters, states, ..Node::default() }
}

pub fn small() -> Vec<Small> {
    let message = |bid: &[u8], body: &[u8]| short(Form::Message, bid, body);
    let knows = Node { known: vec![b"Y".to_vec()], ..Node::default() };
    let small = |said, first, second, room| Small { said, nodes: [first, second], room };
    vec![
        small(
            "a letter each way",
            node(vec![message(b"X", b"hi")]),
            node(vec![message(b"Y", b"yo")]),
            ROOMY,
        ),
        small(
            "a file, an empty body, a plain text",
            node(vec![
                short(Form::File, b"X", b"\x01\r"),
                message(b"Z", b""),
                short(Form::Plain, b"P", b"p"),
            ]),
            Node::default(),
            ROOMY,
        ),
        small(
            "a BID at both ends, one in the other case",
            node(vec![message(b"X", b"hi"), message(b"y", b"yo")]),
            node(vec![message(b"X", b"no"), message(b"Y", b"yo")]),
            ROOMY,
        ),
        small(
            "a body longer than announced, and no room for it",
            node(vec![message(b"X", b"abc")]),
            node(vec![message(b"Y", b"yo")]),
            TIGHT,
        ),
        small(
            "room for one, and one that is known",
            knows,
            node(vec![message(b"X", b"hi"), message(b"Y", b"yo"), message(b"Z", b"\r\n")]),
            TIGHT,
        ),
    ]
}

// ---------------------------------------------------------------- random

/// BIDs known at the start: none, a few, or about as many as a list holds beside
/// all that the series can keep.
const KNOWN: [usize; 4] = [0, 0, 7, 900];

/// Two nodes with up to 64 letters each.
pub fn random(random: &mut Random) -> [Node; 2] {
    let mut number = 0;
    let mut nodes = [Node::default(), Node::default()];
    for node in &mut nodes {
        node.partner = random.below(PARTNERS);
        let count = match random.below(8) {
            0 => RECORDS_MAX,
            1 | 2 => random.within(0, RECORDS_MAX),
            _ => random.within(0, 8),
        };
        for _ in 0..count {
            number += 1;
            let state = match random.below(10) {
                0 => State::Forwarded,
                1 => State::Declined,
                _ => State::Waiting,
            };
            node.add(letter(random, number), state);
        }
        for _ in 0..random.pick(&KNOWN) {
            number += 1;
            node.known.push(numbered(random, number));
        }
    }
    share(random, &mut nodes);
    nodes
}

/// A BID that no other number has, in whatever case.
fn numbered(random: &mut Random, number: u32) -> Vec<u8> {
    let digits = number.to_string().into_bytes();
    let mut front = bid(random);
    front.truncate(BID_MAX - 1 - digits.len());
    [front, b"_".to_vec(), digits].concat()
}

fn letter(random: &mut Random, number: u32) -> Letter {
    let form = random.pick(&[Form::Plain, Form::Message, Form::Message, Form::File, Form::File]);
    let length = match random.below(16) {
        0 | 1 => 0,
        2 => random.within(254, 258),
        3 => random.within(500, 1_500),
        _ => random.within(1, 60),
    };
    // Mostly as long as announced; else longer, shorter, or announced as too long.
    let size = match random.below(20) {
        0 | 1 => length as u32 / 2,
        2 => length as u32 + 100,
        3 => BODY_MAX as u32 + 1,
        _ => length as u32,
    };
    let kind = random.pick(&[Kind::Private, Kind::Bulletin]);
    let (from, at, to) = (call(random), at(random), call(random));
    let envelope = Envelope { form, kind, from, at, to, bid: numbered(random, number) };
    Letter {
        envelope,
        size,
        heading: heading(random),
        body: body_of(random, length, form == Form::Plain),
    }
}

/// Some BIDs are at both ends, some in the other case, some known.
fn share(random: &mut Random, nodes: &mut [Node; 2]) {
    let [first, second] = nodes;
    for (letter, other) in first.letters.iter_mut().zip(&second.letters) {
        let theirs = &other.envelope.bid;
        match random.below(10) {
            0 => letter.envelope.bid = theirs.clone(),
            1 => letter.envelope.bid = theirs.iter().map(other_case).collect(),
            _ => {}
        }
    }
    for (known, letter) in first.known.iter_mut().zip(&second.letters) {
        if random.once_in(4) {
            *known = letter.envelope.bid.clone();
        }
    }
}

fn other_case(byte: &u8) -> u8 {
    if byte.is_ascii_lowercase() {
        byte.to_ascii_uppercase()
    } else {
        byte.to_ascii_lowercase()
    }
}
