//! The checksum of data, and the heading where it lies in its store.

use crate::lent::Lent;
use crate::report::{same, same_bytes, Checked, Input};
use crate::run::Run;
use crate::writers::form;
use compare::random::Random;
use compare::words::{self, HeadingAt};
use second::buffer::put;
use second::{record, transfer};

const CHECKSUM: &str = "words_checksum";
const CHECKSUM_EACH: &str = "words_checksum_each";
const HEADING: &str = "words_heading";

fn check_sum(run: &mut Run, data: &[u8]) -> Checked {
    run.tally.count(CHECKSUM);
    let input = || Input::new().bytes("data", data);
    same(CHECKSUM, words::checksum(data), transfer::checksum(data), input)?;
    run.tally.count(CHECKSUM_EACH);
    same(CHECKSUM_EACH, words::checksum_each(data), transfer::checksum(data), input)
}

fn check_heading(run: &mut Run, at: &HeadingAt<'_>, size: usize) -> Checked {
    run.tally.count(HEADING);
    let mut lent = Lent::new(&mut run.random, size);
    let mut expected = lent.clone();
    let count = words::heading(at, lent.part());
    let heading = record::heading(form(at.form), at.titles, at.names, at.start, at.length);
    let second = put(heading.unwrap_or_default(), 0, expected.part(), 0);
    let input = || {
        Input::new()
            .bytes("titles", at.titles)
            .bytes("names", at.names)
            .number("form", at.form)
            .number("start", at.start)
            .number("len", at.length)
            .number("buffer size", size)
    };
    same(HEADING, count, second, input)?;
    same_bytes(HEADING, "buffer (from 16 bytes in front of it)", lent.all(), expected.all(), input)
}

/// Every pair of bytes and every length of one byte for the checksum; every
/// start, length and buffer size for two small stores, in every form.
pub fn limits(run: &mut Run) -> Checked {
    for first in 0..=255 {
        for second in 0..=255 {
            check_sum(run, &[first, second])?;
        }
    }
    for length in (0..=600).chain([65_535, 65_536]) {
        for byte in [1, 0x7F, 0x80, 0xFF] {
            check_sum(run, &vec![byte; length])?;
        }
    }
    for start in (0..=9).chain([usize::MAX]) {
        for length in (0..=9).chain([usize::MAX]) {
            for size in 0..=8 {
                for form in 0..=4 {
                    let (titles, names) = (b"a title", b"name");
                    let at = HeadingAt { titles, names, form, start, length };
                    check_heading(run, &at, size)?;
                }
            }
        }
    }
    Ok(())
}

pub fn random_sums(run: &mut Run) -> Checked {
    let random = &mut run.random;
    let data = inputs::body(random, false);
    check_sum(run, &data)
}

/// A number up to a length, or just past it, or far past it.
fn up_to(random: &mut Random, length: usize) -> usize {
    match random.below(16) {
        0 => random.number() as usize,
        1 => usize::MAX - random.below(100),
        _ => random.below(length + 3),
    }
}

pub fn random_headings(run: &mut Run) -> Checked {
    let random = &mut run.random;
    let [titles, names] = [(); 2].map(|()| {
        let length = random.below(120);
        inputs::bytes(random, length)
    });
    let form = random.pick(&[0, 1, 2, 2, 3, 255]);
    let store = if form == 2 { names.len() } else { titles.len() };
    let start = up_to(random, store);
    let at = HeadingAt {
        titles: &titles,
        names: &names,
        form,
        start,
        length: up_to(random, store.saturating_sub(start)),
    };
    let size = random.below(120);
    check_heading(run, &at, size)
}
