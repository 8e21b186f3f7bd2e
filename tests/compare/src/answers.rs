//! FS lines: the answers to a block.

use crate::lent::Lent;
use crate::report::{same, same_bytes, Checked, Input};
use crate::run::Run;
use compare::words;
use second::fs;
use second::sid::Level;

const READ_FS: &str = "words_read_fs";

/// 0 is level 0, any other number counts as 1.
const LEVELS: [u8; 3] = [0, 1, 9];

fn second_answer(level: u8, line: &[u8], proposals: usize) -> (u8, [u8; 5]) {
    let mut bytes = [0; 5];
    match fs::read(line, proposals, Level::numbered(level)) {
        Ok(signs) => {
            let signs = signs.iter().map(|sign| sign.byte());
            bytes.iter_mut().zip(signs).for_each(|(byte, sign)| *byte = sign);
            (0, bytes)
        }
        Err(refusal) => (refusal.number(), bytes),
    }
}

fn check(run: &mut Run, line: &[u8], proposals: usize) -> Checked {
    LEVELS.iter().try_for_each(|&level| check_at(run, level, line, proposals))
}

fn check_at(run: &mut Run, level: u8, line: &[u8], proposals: usize) -> Checked {
    run.tally.count(READ_FS);
    let mut lent = Lent::new(&mut run.random, 5);
    let mut expected = lent.clone();
    let number = words::read_fs(level, line, proposals, lent.array());
    let (second, signs) = second_answer(level, line, proposals);
    *expected.array() = signs;
    let input = || {
        let level = Input::new().number("level", level);
        level.number("proposals", proposals).bytes("line", line)
    };
    same(READ_FS, number, second, input)?;
    same_bytes(READ_FS, "signs (from 16 bytes in front of them)", lent.all(), expected.all(), input)
}

/// `FS` and every few of the bytes that matter to 01, for every number of proposals; every
/// line of two bytes; every byte at every place of an example.
pub fn limits(run: &mut Run) -> Checked {
    for length in 0..=6 {
        every_line(run, b" +-=X", length, |run, line| {
            (0..=7).chain([usize::MAX]).try_for_each(|proposals| check(run, line, proposals))
        })?;
    }
    for first in 0..=255 {
        for second in 0..=255 {
            check(run, &[first, second], 1)?;
            check(run, &[first, second, b' ', b'+'], 1)?;
        }
    }
    for (example, proposals) in [(&b"FS +-="[..], 6), (b"FS YA10", 4)] {
        every_byte(run, example, proposals)?;
    }
    for length in 0..=300_usize {
        for proposals in [length, length + 1, length.saturating_sub(1), length.saturating_sub(3)] {
            check(run, &[b"FS ", &vec![b'+'; length][..]].concat(), proposals)?;
        }
    }
    later_signs(run)?;
    numbers(run)
}

/// Every line of `FS` and so many bytes of this alphabet.
fn every_line(
    run: &mut Run,
    alphabet: &[u8],
    length: u32,
    mut check: impl FnMut(&mut Run, &[u8]) -> Checked,
) -> Checked {
    let letters = alphabet.len();
    for number in 0..letters.pow(length) {
        let rest = (0..length).map(|place| alphabet[number / letters.pow(place) % letters]);
        let line: Vec<u8> = b"FS".iter().copied().chain(rest).collect();
        check(run, &line)?;
    }
    Ok(())
}

/// Every byte at every place of a line, for up to so many proposals.
fn every_byte(run: &mut Run, example: &[u8], most: usize) -> Checked {
    for place in 0..example.len() {
        for byte in 0..=255 {
            let mut line = example.to_vec();
            line[place] = byte;
            for proposals in 0..=most {
                check(run, &line, proposals)?;
            }
        }
    }
    Ok(())
}

/// `FS`, a space and up to four bytes of all that stands for a sign or belongs to one, and
/// one byte that doesn't, for the numbers of proposals that they can answer.
fn later_signs(run: &mut Run) -> Checked {
    for length in 0..=4 {
        every_line(run, b"+-=YNLHREynlhreAa!019X", length, |run, line| {
            let line = [b"FS ", &line[2..]].concat();
            (0..=length as usize).try_for_each(|proposals| check(run, &line, proposals))
        })?;
    }
    Ok(())
}

/// Numbers of every length up to nine digits, zeros with another digit at every place,
/// behind each mark and with a sign on either side or none.
fn numbers(run: &mut Run) -> Checked {
    for mark in *b"Aa!Y+" {
        for length in 0..=9 {
            for place in 0..=length {
                for digit in *b"019/:" {
                    let mut number = vec![b'0'; length];
                    if place < length {
                        number[place] = digit;
                    }
                    for (before, after) in [("", ""), ("n", ""), ("", "+"), ("A1", "!0")] {
                        let signs =
                            [before.as_bytes(), &[mark], &number, after.as_bytes()].concat();
                        let line = [b"FS ", &signs[..]].concat();
                        (0..=5).try_for_each(|proposals| check(run, &line, proposals))?;
                    }
                }
            }
        }
    }
    Ok(())
}

pub fn random(run: &mut Run) -> Checked {
    let random = &mut run.random;
    let proposals = match random.below(16) {
        0 => random.number() as usize,
        _ => random.below(8),
    };
    let signs = match random.below(4) {
        0 => random.below(10),
        _ => proposals.min(10),
    };
    let line = match random.below(16) {
        0 => inputs::line(random),
        _ => inputs::fs_line(random, signs),
    };
    let line = inputs::damaged(random, line);
    check(run, &line, proposals)
}
