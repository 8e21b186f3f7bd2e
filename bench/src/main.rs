//! How fast the proved library is beside the second implementation, in one run
//! on one machine, and what a call costs at least.

#![forbid(unsafe_code)]

mod calls;
mod end;
mod one_byte;
#[cfg(feature = "words")]
mod sums;
mod timing;
#[cfg(feature = "words")]
mod words;

use inputs::random::Random;
use second::field::{BODY_END, BODY_MAX};
use second::sid::Mode;
use second::transfer::writer::{write_framed, write_plain};
use std::process::ExitCode;

const USAGE: &str = "bench                        times, in tables
bench --rows                 the rows that a tool can count: name, sides, and either body
                             bytes or the call to count
bench --play ROW SIDE TIMES  plays one side of a row so many times";

/// The longest body. It holds no end mark, so that it serves both modes.
fn body() -> Vec<u8> {
    let mut body = vec![0; BODY_MAX];
    Random::named(1, "body").fill(&mut body);
    body.iter_mut().filter(|byte| **byte == BODY_END).for_each(|byte| *byte = 0);
    body
}

/// A message as it is on the link.
fn transfer(mode: Mode, heading: &[u8], body: &[u8]) -> Vec<u8> {
    match mode {
        Mode::Plain => write_plain(heading, body),
        Mode::Framed => write_framed(heading, body),
    }
}

fn times() {
    #[cfg(feature = "words")]
    {
        words::run();
        println!();
        sums::run();
        println!();
    }
    calls::run();
    println!();
    one_byte::run();
}

fn list() {
    for row in calls::rows() {
        println!("{}|library|second|{}|", row.name, row.bytes());
    }
    for row in one_byte::rows() {
        println!("{}|empty|full||{}", row.name, row.symbol());
    }
    #[cfg(feature = "words")]
    for row in sums::rows() {
        println!("{}|rounds|each||words_checksum*", row.name);
    }
}

#[cfg(feature = "words")]
fn play_sum(name: &str, side: &str, times: usize) -> bool {
    let row = sums::rows().into_iter().find(|row| row.name == name);
    row.map_or(false, |row| sums::play(&row, side, times))
}

#[cfg(not(feature = "words"))]
fn play_sum(_name: &str, _side: &str, _times: usize) -> bool {
    false
}

fn play(name: &str, side: &str, times: usize) -> bool {
    let calls = calls::rows().into_iter().find(|row| row.name == name);
    let one_byte = one_byte::rows().into_iter().find(|row| row.name == name);
    calls.map_or(false, |row| calls::play(&row, side, times))
        || one_byte.map_or(false, |row| one_byte::play(&row, side, times))
        || play_sum(name, side, times)
}

fn main() -> ExitCode {
    let words: Vec<String> = std::env::args().skip(1).collect();
    let words: Vec<&str> = words.iter().map(String::as_str).collect();
    let known = match words[..] {
        [] => {
            times();
            true
        }
        ["--rows"] => {
            list();
            true
        }
        ["--play", row, side, times] => times.parse().map_or(false, |times| play(row, side, times)),
        _ => false,
    };
    if !known {
        eprintln!("{USAGE}");
        return ExitCode::from(2);
    }
    ExitCode::SUCCESS
}
