//! Fields: byte classes, whole fields, BIDs side by side.

use crate::report::{same, Checked, Input};
use crate::run::Run;
use compare::random::Random;
use compare::words;
use second::{field, sid};

const BYTE_IS: &str = "words_byte_is";
const FIELD_IS: &str = "words_field_is";
const SAME_BID: &str = "words_same_bid";

fn class(class: u8, byte: u8) -> bool {
    match class {
        0 => field::is_call_byte(byte),
        1 => field::is_bid_byte(byte),
        2 => field::is_heading_byte(byte),
        3 => byte.is_ascii_digit(),
        4 => sid::is_author_byte(byte),
        _ => sid::is_data_byte(byte),
    }
}

fn is_field(kind: u8, bytes: &[u8]) -> bool {
    match kind {
        0 => field::is_call(bytes),
        1 => field::is_at(bytes),
        2 => field::is_bid(bytes),
        3 => field::is_heading(bytes),
        4 => field::decimal(bytes).is_some(),
        5 => field::is_plain_body(bytes),
        _ => field::is_packed_body(bytes),
    }
}

fn check_byte(run: &mut Run, number: u8, byte: u8) -> Checked {
    run.tally.count(BYTE_IS);
    let input = || Input::new().number("class", number).bytes("byte", &[byte]);
    same(BYTE_IS, words::byte_is(number, byte), class(number, byte).into(), input)
}

fn check_field(run: &mut Run, kind: u8, bytes: &[u8]) -> Checked {
    run.tally.count(FIELD_IS);
    let input = || Input::new().number("kind", kind).bytes("field", bytes);
    same(FIELD_IS, words::field_is(kind, bytes), is_field(kind, bytes).into(), input)
}

fn check_bids(run: &mut Run, a: &[u8], b: &[u8]) -> Checked {
    run.tally.count(SAME_BID);
    let input = || Input::new().bytes("a", a).bytes("b", b);
    same(SAME_BID, words::same_bid(a, b), field::same_bid(a, b).into(), input)
}

/// Every byte in every class, every limit below, at and above.
pub fn limits(run: &mut Run) -> Checked {
    for number in 0..=255 {
        for byte in 0..=255 {
            check_byte(run, number, byte)?;
        }
    }
    lengths(run)?;
    every_byte_at_every_place(run)?;
    dots(run)?;
    bodies(run)?;
    for length in 0..20 {
        for other in 0..20 {
            check_bids(run, &vec![b'A'; length], &vec![b'a'; other])?;
        }
    }
    for a in 0..=255 {
        for b in 0..=255 {
            check_bids(run, &[b'1', a], &[b'1', b])?;
        }
    }
    Ok(())
}

/// Each kind of field at each length.
fn lengths(run: &mut Run) -> Checked {
    for kind in [0, 1, 2, 3, 4, 5, 6, 255] {
        for length in 0..=300 {
            for byte in *b"A1. \x1A\x80\xFF" {
                check_field(run, kind, &vec![byte; length])?;
            }
        }
    }
    Ok(())
}

/// Each byte at each place of fields of the lengths around the limit.
fn every_byte_at_every_place(run: &mut Run) -> Checked {
    for (kind, limit) in [(0, 6), (1, 6), (2, 12), (3, 80), (4, 9), (5, 3), (6, 3)] {
        for length in [1, limit - 1, limit, limit + 1] {
            for place in 0..length {
                for byte in 0..=255 {
                    let mut field = vec![b'1'; length];
                    field[place] = byte;
                    check_field(run, kind, &field)?;
                }
            }
        }
    }
    Ok(())
}

/// At: every pattern of dots in up to 16 bytes, and every length of the first
/// part and of what follows it.
fn dots(run: &mut Run) -> Checked {
    for length in 0..=16 {
        for pattern in 0..1_u32 << length {
            let dot = |place: u32| {
                if pattern >> place & 1 == 1 {
                    b'.'
                } else {
                    b'A'
                }
            };
            let at: Vec<u8> = (0..length).map(dot).collect();
            check_field(run, 1, &at)?;
        }
    }
    for first in 0..=8 {
        for tail in 0..=40 {
            for step in 1..=8 {
                // A dot at each step, but none at the end.
                let dot = |place| place % step == step - 1 && place + 1 < tail;
                let tail = (0..tail).map(|place| if dot(place) { b'.' } else { b'A' });
                let at: Vec<u8> = vec![b'A'; first].into_iter().chain([b'.']).chain(tail).collect();
                check_field(run, 1, &at)?;
            }
        }
    }
    Ok(())
}

fn bodies(run: &mut Run) -> Checked {
    for length in [65_534, 65_535, 65_536, 65_537] {
        for place in [0, length / 2, length - 1] {
            let mut body = vec![b'x'; length];
            for kind in [5, 6] {
                check_field(run, kind, &body)?;
            }
            body[place] = field::BODY_END;
            for kind in [5, 6] {
                check_field(run, kind, &body)?;
            }
        }
    }
    Ok(())
}

pub fn random_bytes(run: &mut Run) -> Checked {
    let number = run.random.byte();
    let byte = inputs::byte(&mut run.random);
    check_byte(run, number % 8, byte)
}

fn valid(random: &mut Random, kind: u8) -> Vec<u8> {
    match kind {
        0 => inputs::call(random),
        1 => inputs::at(random),
        2 => inputs::bid(random),
        3 => inputs::heading(random),
        4 => inputs::digits(random),
        _ => inputs::body(random, kind == 5),
    }
}

pub fn random_fields(run: &mut Run) -> Checked {
    let random = &mut run.random;
    let kind = random.below(8) as u8;
    let field = match random.below(5) {
        0 => {
            let length = random.below(100);
            inputs::bytes(random, length)
        }
        _ => {
            let field = valid(random, kind);
            inputs::damaged(random, field)
        }
    };
    check_field(run, kind, &field)
}

pub fn random_bids(run: &mut Run) -> Checked {
    let random = &mut run.random;
    let length = inputs::length(random, field::BID_MAX);
    let a = match random.below(2) {
        0 => inputs::bytes(random, length),
        _ => inputs::bid(random),
    };
    let b = match random.below(6) {
        0 => a.clone(),
        1 => inputs::bid(random),
        2 | 3 => inputs::respelt(random, &a),
        _ => inputs::damaged(random, a.clone()),
    };
    check_bids(run, &a, &b)
}
