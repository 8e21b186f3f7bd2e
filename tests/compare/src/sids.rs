//! SIDs: valid or not, with F or without, and every level.

use crate::lent::Lent;
use crate::report::{same, same_bytes, Checked, Input};
use crate::run::Run;
use compare::words;
use second::sid::{self, Feature, FeatureSet};

const READ_SID: &str = "words_read_sid";

/// The number, and the levels as the C interface has them.
fn second_answer(line: &[u8]) -> (u8, [u8; FeatureSet::PLACES]) {
    match sid::read(line) {
        None => (3, [0; FeatureSet::PLACES]),
        Some(set) => {
            let number = if set.has(Feature::FORWARDING) { 0 } else { 4 };
            (number, set.levels().map(|level| level.map_or(0, |level| level + 1)))
        }
    }
}

fn check(run: &mut Run, line: &[u8]) -> Checked {
    run.tally.count(READ_SID);
    let mut lent = Lent::new(&mut run.random, FeatureSet::PLACES);
    let mut expected = lent.clone();
    let number = words::read_sid(line, lent.array());
    let (second, levels) = second_answer(line);
    *expected.array() = levels;
    let input = || Input::new().bytes("line", line);
    same(READ_SID, number, second, input)?;
    same_bytes(
        READ_SID,
        "levels (from 16 bytes in front of them)",
        lent.all(),
        expected.all(),
        input,
    )
}

/// Every short SID of the bytes that matter, every byte at every place of two
/// examples, every letter with every level, every pair of letters.
pub fn limits(run: &mut Run) -> Checked {
    every_short_sid(run)?;
    for example in [&b"[BayCom-1.40P-AB1D1FHMRW$]"[..], b"[A-F]", b"[NOD-1-B1FH$]", b"[A---F]"] {
        for place in 0..example.len() {
            for byte in 0..=255 {
                let mut line = example.to_vec();
                line[place] = byte;
                check(run, &line)?;
                line.insert(place, example[place]);
                check(run, &line)?;
            }
            check(run, &example[..place])?;
            check(run, &example[place..])?;
            check(run, &[&example[..place], &example[place + 1..]].concat())?;
        }
    }
    letters(run)?;
    for length in 0..=300 {
        for byte in *b"A- \x7F\x80" {
            let long = vec![byte; length];
            check(run, &[b"[", &long[..], b"-F]"].concat())?;
            check(run, &[b"[A-", &long[..], b"-F]"].concat())?;
            check(run, &[b"[A-", &long[..], b"]"].concat())?;
        }
    }
    Ok(())
}

/// `[`, up to six bytes, `]`.
fn every_short_sid(run: &mut Run) -> Checked {
    for length in 0..=6 {
        for number in 0..7_usize.pow(length) {
            let inner = (0..length).map(|place| b"A-Ff1$]"[number / 7_usize.pow(place) % 7]);
            let line: Vec<u8> = [b'['].into_iter().chain(inner).chain([b']']).collect();
            check(run, &line)?;
        }
    }
    Ok(())
}

/// Every pair of bytes as features, and every letter with every digit.
fn letters(run: &mut Run) -> Checked {
    for first in 0..=255 {
        for second in 0..=255 {
            check(run, &[b'[', b'A', b'-', first, second, b']'])?;
        }
    }
    for letter in (b'A'..=b'Z').chain(b'a'..=b'z') {
        for digit in b'0'..=b'9' {
            check(run, &[b'[', b'A', b'-', letter, digit, b'$', b']'])?;
            check(run, &[b'[', b'A', b'-', b'F', letter, digit, b']'])?;
            check(run, &[b'[', b'A', b'-', letter, digit, b'f', b'7', b'$', b']'])?;
        }
    }
    let all: Vec<u8> = (b'A'..=b'Z').flat_map(|letter| [letter, b'9']).collect();
    check(run, &[b"[A-", &all[..], b"$]"].concat())
}

pub fn random(run: &mut Run) -> Checked {
    let sid = inputs::sid(&mut run.random);
    let line = inputs::damaged(&mut run.random, sid);
    check(run, &line)
}
