//! Lines: the step on one byte, the spaces at the end, comments and prompts.

use crate::report::{same, Checked, Input};
use crate::run::Run;
use compare::words;
use second::line::{self, Step};

const TRIMMED: &str = "words_trimmed";
const IS_COMMENT: &str = "words_is_comment";
const IS_PROMPT: &str = "words_is_prompt";
const LINE_BYTE: &str = "words_line_byte";

fn check_line(run: &mut Run, bytes: &[u8]) -> Checked {
    for function in [TRIMMED, IS_COMMENT, IS_PROMPT] {
        run.tally.count(function);
    }
    let input = || Input::new().bytes("line", bytes);
    same(TRIMMED, words::trimmed(bytes), line::trimmed(bytes).len(), input)?;
    same(IS_COMMENT, words::is_comment(bytes), line::is_comment(bytes).into(), input)?;
    same(IS_PROMPT, words::is_prompt(bytes), line::is_prompt(bytes).into(), input)
}

fn check_byte(run: &mut Run, after_cr: u8, length: usize, byte: u8) -> Checked {
    run.tally.count(LINE_BYTE);
    let second = match line::step(after_cr != 0, length, byte) {
        Ok(Step::Dropped) => 0,
        Ok(Step::End) => 1,
        Ok(Step::More) => 2,
        Err(_) => 3,
    };
    let input =
        || Input::new().number("after_cr", after_cr).number("len", length).bytes("byte", &[byte]);
    same(LINE_BYTE, words::line_byte(after_cr, length, byte), second, input)
}

/// Every byte at every length of a line, and every line of few bytes.
pub fn limits(run: &mut Run) -> Checked {
    for after_cr in [0, 1, 2, 255] {
        for length in (0..=300).chain([usize::MAX - 1, usize::MAX]) {
            for byte in 0..=255 {
                check_byte(run, after_cr, length, byte)?;
            }
        }
    }
    for length in 0..=300 {
        for spaces in [0, 1, 2, 255, 256, 257].into_iter().chain([length]) {
            let mut line = vec![b'x'; length];
            line[length.saturating_sub(spaces)..].fill(b' ');
            check_line(run, &line)?;
        }
    }
    every_short_line(run)?;
    for byte in 0..=255 {
        for line in [&[byte][..], &[byte, b' '], &[b'a', byte], &[byte, b'>']] {
            check_line(run, line)?;
        }
    }
    Ok(())
}

/// Every line of up to six of the bytes that matter.
fn every_short_line(run: &mut Run) -> Checked {
    for length in 0..=6 {
        for number in 0..5_usize.pow(length) {
            let line: Vec<u8> =
                (0..length).map(|place| b" >;a\x80"[number / 5_usize.pow(place) % 5]).collect();
            check_line(run, &line)?;
        }
    }
    Ok(())
}

pub fn random_lines(run: &mut Run) -> Checked {
    let line = inputs::line(&mut run.random);
    let line = inputs::damaged(&mut run.random, line);
    check_line(run, &line)
}

pub fn random_bytes(run: &mut Run) -> Checked {
    let random = &mut run.random;
    let after_cr = random.pick(&[0, 0, 1, 77]);
    let length = match random.below(4) {
        0 => random.number() as usize,
        1 => random.within(254, 258),
        _ => random.below(300),
    };
    let byte = inputs::byte(random);
    check_byte(run, after_cr, length, byte)
}
