//! Inputs that are valid or nearly so, and the damage done to them; and random
//! numbers that a seed repeats.

#![forbid(unsafe_code)]

pub mod random;
pub mod seed;

use random::Random;
use second::field;
use second::sid::is_author_byte;

/// Bytes that mean something somewhere in 01.
const SPECIAL: &[u8] = b"\r\n\x00\x01\x02\x04\x1A [];>$@.-+=0159FfBbPpSs\x7F\x80\xFF";

/// Letters at the ends of the alphabet, their neighbours, and accented letters.
const CASES: &[u8] = b"AaBbMmYyZz@`[{^~_\x7F1\xC0\xE0\xC9\xE9\xDE\xFE\xFF";

/// A byte of any value; those from 0x80, control bytes and bytes with a meaning
/// come more often than they would by chance.
pub fn byte(random: &mut Random) -> u8 {
    match random.below(8) {
        0 | 1 => 0x80 | random.byte(),
        2 => random.byte() & 0x1F,
        3 | 4 => random.pick(SPECIAL),
        _ => random.byte(),
    }
}

pub fn bytes(random: &mut Random, length: usize) -> Vec<u8> {
    (0..length).map(|_| byte(random)).collect()
}

/// A length from 1 to the limit, at times 0, and often just at the limit.
pub fn length(random: &mut Random, limit: usize) -> usize {
    match random.below(16) {
        0 => 0,
        1 => limit - 1,
        2 | 3 => limit,
        4 => limit + 1,
        _ => random.within(1, limit),
    }
}

/// So many bytes of a class, mostly the letters and digits of daily use.
fn of_class(random: &mut Random, length: usize, class: fn(u8) -> bool) -> Vec<u8> {
    let mut draw = || loop {
        let byte = match random.below(2) {
            0 => random.pick(b"ABCDEFGHIJKLMNOPQRSTUVWXYZabcdefghijklmnopqrstuvwxyz0123456789_"),
            _ => byte(random),
        };
        if class(byte) {
            return byte;
        }
    };
    (0..length).map(|_| draw()).collect()
}

pub fn call(random: &mut Random) -> Vec<u8> {
    let length = random.within(1, field::CALL_MAX);
    of_class(random, length, field::is_call_byte)
}

/// One to several parts; short enough to be valid.
pub fn at(random: &mut Random) -> Vec<u8> {
    let mut at = call(random);
    let first = at.len();
    for _ in 0..random.below(6) {
        let part = call(random);
        if at.len() - first + part.len() < field::HIERARCHY_MAX + 1 {
            at.push(b'.');
            at.extend(part);
        }
    }
    at
}

/// A BID; every other one of letters and of what differs as a letter's two cases
/// do and is no letter.
pub fn bid(random: &mut Random) -> Vec<u8> {
    let length = random.within(1, field::BID_MAX);
    if random.once_in(2) {
        return (0..length).map(|_| random.pick(CASES)).collect();
    }
    of_class(random, length, field::is_bid_byte)
}

/// The same BID, its letters in another case.
pub fn respelt(random: &mut Random, bid: &[u8]) -> Vec<u8> {
    match random.below(3) {
        0 => bid.to_ascii_uppercase(),
        1 => bid.to_ascii_lowercase(),
        _ => bid.iter().map(|byte| either_case(random, byte.to_ascii_uppercase())).collect(),
    }
}

pub fn heading(random: &mut Random) -> Vec<u8> {
    let length = match random.below(4) {
        0 => random.within(70, field::HEADING_MAX),
        _ => random.within(1, 20),
    };
    of_class(random, length, field::is_heading_byte)
}

/// 1 to 9 digits, at times with zeros in front.
pub fn digits(random: &mut Random) -> Vec<u8> {
    let length = random.within(1, field::SIZE_DIGITS);
    of_class(random, length, |byte| byte.is_ascii_digit())
}

/// A body of a few blocks at most, and once in a while one that is about as
/// long as a body can be; without 0x1A if it is to be plain.
pub fn body(random: &mut Random, plain: bool) -> Vec<u8> {
    let length = match random.below(8) {
        0 if random.once_in(100) => random.within(65_530, 65_540),
        0 => 0,
        1 => random.within(250, 262),
        2 => random.within(505, 520),
        3 => random.within(1, 700),
        _ => random.within(1, 60),
    };
    body_of(random, length, plain)
}

/// A body of this length.
pub fn body_of(random: &mut Random, length: usize, plain: bool) -> Vec<u8> {
    let mut body = vec![0; length];
    random.fill(&mut body);
    // Marks in odd places are what a reader might trip over.
    for _ in 0..random.below(4).min(length) {
        body[random.below(length)] = random.pick(SPECIAL);
    }
    if plain {
        body.iter_mut().filter(|byte| **byte == field::BODY_END).for_each(|byte| *byte = b'\n');
    }
    body
}

/// A SID with some letters, in either case, and levels.
pub fn sid(random: &mut Random) -> Vec<u8> {
    let author = random.within(1, 8);
    let mut sid = vec![b'['];
    sid.extend(of_class(random, author, is_author_byte));
    sid.push(b'-');
    if !random.once_in(4) {
        let data = random.within(1, 8);
        sid.extend(of_class(random, data, second::sid::is_data_byte));
        sid.push(b'-');
    }
    sid.extend(features(random));
    sid.push(b']');
    sid
}

fn features(random: &mut Random) -> Vec<u8> {
    let mut letters: Vec<u8> = (b'A'..=b'Z').collect();
    let mut text = Vec::new();
    // Without F there is nothing to do with the other letters.
    if random.once_in(2) {
        letters.remove(5);
        text.push(either_case(random, b'F'));
    }
    for _ in 0..random.within(1, 9) {
        // Taken out, so that no letter comes twice; damage sees to that.
        let letter = letters.swap_remove(random.below(letters.len()));
        text.push(either_case(random, letter));
        if random.once_in(3) {
            text.push(b'0' + random.below(10) as u8);
        }
    }
    if random.once_in(2) {
        text.push(b'$');
    }
    text
}

pub fn either_case(random: &mut Random, letter: u8) -> u8 {
    match random.below(3) {
        0 => letter.to_ascii_lowercase(),
        _ => letter,
    }
}

/// A proposal's seven fields.
pub fn proposal_fields(random: &mut Random) -> Vec<Vec<u8>> {
    let second_letter = random.pick(b"ABB");
    let kind = random.pick(b"PB");
    vec![
        vec![either_case(random, b'F'), either_case(random, second_letter)],
        vec![either_case(random, kind)],
        call(random),
        at(random),
        call(random),
        bid(random),
        digits(random),
    ]
}

/// Fields with one space between, or at times more.
pub fn spaced(random: &mut Random, fields: &[Vec<u8>]) -> Vec<u8> {
    let mut line = Vec::new();
    for (place, field) in fields.iter().enumerate() {
        if place > 0 {
            let more = if random.once_in(8) { random.below(4) } else { 0 };
            line.extend(vec![b' '; 1 + more]);
        }
        line.extend(field);
    }
    line
}

/// FF, FQ, `F>` or `F> HH`, in either case.
pub fn short_turn_line(random: &mut Random) -> Vec<u8> {
    let letter = random.pick(b"FQ>>");
    let mut line = vec![either_case(random, b'F'), either_case(random, letter)];
    if letter == b'>' && random.once_in(2) {
        let digits = format!("{:02X}", random.byte());
        line.push(b' ');
        line.extend(digits.bytes().map(|digit| either_case(random, digit)));
    }
    line
}

/// An FS line with so many signs.
pub fn fs_line(random: &mut Random, signs: usize) -> Vec<u8> {
    let mut line = vec![either_case(random, b'F'), either_case(random, b'S'), b' '];
    let later = random.once_in(2);
    for _ in 0..signs {
        match later {
            true => later_sign(random, &mut line),
            false => line.push(random.pick(b"+-=")),
        }
    }
    line
}

/// A sign of either level; letters in either case, a number at times too long or absent.
pub fn later_sign(random: &mut Random, line: &mut Vec<u8>) {
    let sign = random.pick(b"+-=YNLHREYNLHREA!A!");
    line.push(either_case(random, sign));
    if b"A!".contains(&sign) {
        let digits = if random.once_in(8) { random.pick(&[0, 7]) } else { random.within(1, 6) };
        let zeros = random.once_in(2);
        line.extend((0..digits).map(|_| if zeros { b'0' } else { random.pick(b"0123456789") }));
    }
}

/// Any line: of letters, of bytes, of spaces and `>`, up to 300 bytes.
pub fn line(random: &mut Random) -> Vec<u8> {
    let length = match random.below(8) {
        0 => random.within(250, 300),
        1 => random.below(100),
        _ => random.below(20),
    };
    let mut line = match random.below(3) {
        0 => bytes(random, length),
        1 => (0..length).map(|_| random.pick(b" >;aF")).collect(),
        _ => of_class(random, length, field::is_heading_byte),
    };
    if random.once_in(4) {
        line.insert(0, b';');
    }
    if random.once_in(4) {
        line.push(b'>');
    }
    if random.once_in(4) {
        line.extend(vec![b' '; random.within(1, 5)]);
    }
    line
}

/// A framed transfer of this heading and body with any offset digits and any
/// blocks.
pub fn framed(random: &mut Random, heading: &[u8], body: &[u8]) -> Vec<u8> {
    let offset = if random.once_in(2) { 1 } else { random.within(1, 6) };
    let mut out = vec![1, (heading.len() + offset + 2) as u8];
    out.extend_from_slice(heading);
    out.push(0);
    out.extend(vec![b'0'; offset]);
    out.push(0);
    let most = random.pick(&[256, 256, 3, 40]);
    let mut rest = body;
    while !rest.is_empty() {
        let (data, tail) = rest.split_at(random.within(1, most).min(rest.len()));
        out.extend_from_slice(&[2, data.len() as u8]);
        out.extend_from_slice(data);
        rest = tail;
    }
    out.extend_from_slice(&[4, second::transfer::checksum(body)]);
    out
}

/// A plain transfer, at times with spaces before its last CR.
pub fn plain(random: &mut Random, title: &[u8], body: &[u8]) -> Vec<u8> {
    let mut out = second::transfer::writer::write_plain(title, body);
    if random.once_in(3) {
        out.pop();
        out.extend(vec![b' '; random.within(1, 5)]);
        out.push(b'\r');
    }
    out
}

/// Damages the bytes in one way: a byte changed, deleted, inserted or doubled,
/// its case turned, spaces put in, or the end cut off.
pub fn damage(random: &mut Random, bytes: &mut Vec<u8>) {
    if bytes.is_empty() {
        bytes.push(byte(random));
        return;
    }
    let place = random.below(bytes.len());
    let gap = random.below(bytes.len() + 1);
    match random.below(9) {
        0 | 1 => bytes[place] = byte(random),
        2 => bytes[place] = bytes[place].wrapping_add(random.pick(&[1, 0xFF, 0x20, 0x80])),
        3 => drop(bytes.remove(place)),
        4 => bytes.insert(gap, byte(random)),
        5 => bytes.truncate(place),
        6 => bytes.insert(place, bytes[place]),
        7 => bytes[place] ^= 0x20,
        _ => bytes.insert(gap, b' '),
    }
}

/// Leaves two in five as they are, and damages the others once or a few times.
pub fn damaged(random: &mut Random, mut bytes: Vec<u8>) -> Vec<u8> {
    let times = match random.below(10) {
        0..=3 => 0,
        4..=7 => 1,
        8 => 2,
        _ => random.within(3, 6),
    };
    for _ in 0..times {
        damage(random, &mut bytes);
    }
    bytes
}
