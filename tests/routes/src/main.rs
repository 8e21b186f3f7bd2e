//! Compares the proved reader and writer of routing headers with the second
//! implementation: every limit, every date, real headers, random and damaged
//! bodies.

mod cases;
mod library;

use inputs::random::Random;
use inputs::seed;
use second::field::BODY_MAX;
use second::route::{self, Ours};
use std::process::ExitCode;

const USAGE: &str = "routes [--seed N] [--count N]
  --seed N     repeat the run of this seed (as printed at its start)
  --count N    random bodies, each read and written (default 200000)";

/// How many headers were found, so that a run that finds none is seen.
#[derive(Default)]
struct Tally {
    bodies: u64,
    headers: u64,
    written: u64,
    refused: [u64; 2],
}

/// Reading from a place is reading what follows it.
fn read_at(body: &[u8], at: usize) -> bool {
    let rest = body.get(at..).unwrap_or_default();
    let expected = route::route(rest).into_iter().next().map(|(mut header, next)| {
        header.mailbox = header.mailbox.start + at..header.mailbox.end + at;
        (header, next + at)
    });
    library::next(body, at) == expected
}

/// All headers of a body, its origin, and the header at a place of any kind.
fn read(body: &[u8], place: usize, tally: &mut Tally) -> bool {
    let mut at = 0;
    for (header, next) in route::route(body) {
        if library::next(body, at) != Some((header, next)) {
            return false;
        }
        at = next;
        tally.headers += 1;
    }
    tally.bodies += 1;
    library::next(body, at).is_none()
        && library::origin(body) == route::origin(body)
        && read_at(body, place)
}

/// The writer with so much room; what it may not touch is compared too, and what it wrote is read.
fn write(ours: &Ours, body: &[u8], room: usize, tally: &mut Tally) -> bool {
    let mut out = vec![0xA5; room];
    let mut expected = out.clone();
    let (answer, count) = match route::add(ours, body, room) {
        Ok(text) => {
            expected[..text.len()].copy_from_slice(&text);
            tally.written += 1;
            (0, text.len())
        }
        Err(number) => {
            tally.refused[usize::from(number) - 1] += 1;
            (number, 0)
        }
    };
    let same = library::add(&mut out, ours, body) == (answer, count) && out == expected;
    same && (answer != 0 || read(&out[..count], 0, tally))
}

/// The buffer's length and 65,535, each at, below and above.
fn writer_limits(tally: &mut Tally) -> bool {
    let ours = Ours {
        year: 1999,
        month: 12,
        day: 31,
        hour: 23,
        minute: 59,
        number: 999_999_999,
        mailbox: b"ABCDEF.ABCDEF".to_vec(),
    };
    let line = route::add(&ours, b"", BODY_MAX).map_or(0, |text| text.len());
    let bodies = [
        0,
        1,
        BODY_MAX - line - 1,
        BODY_MAX - line,
        BODY_MAX - line + 1,
        BODY_MAX,
        BODY_MAX + 1,
        2 * BODY_MAX,
    ];
    bodies.iter().all(|&length| {
        let body = vec![b'x'; length];
        let whole = line + length;
        [0, whole - 1, whole, whole + 1, BODY_MAX - 1, BODY_MAX, BODY_MAX + 1]
            .iter()
            .all(|&room| write(&ours, &body, room, tally))
    })
}

/// The first case on which the two don't agree.
fn compare(random: &mut Random, count: u64, tally: &mut Tally) -> Result<(), String> {
    let real = cases::real();
    if real.is_empty() {
        return Err("no real header in the captures".into());
    }
    for line in cases::fixed().iter().chain(&real).cloned().chain(cases::dates()) {
        if !read(&line, 0, tally) {
            return Err(format!("line {}", line.escape_ascii()));
        }
    }
    if !writer_limits(tally) {
        return Err("a limit of the writer".into());
    }
    for _ in 0..count {
        let body = cases::body(random, &real);
        let place = random.below(body.len() + 3);
        if !read(&body, place, tally) {
            return Err(format!("body {}, place {place}", body.escape_ascii()));
        }
        let ours = cases::ours(random);
        let whole = 64 + body.len();
        let room = random.within(whole.saturating_sub(50), whole + 5);
        if !write(&ours, &body, room, tally) {
            return Err(format!("{ours:?} in front of {}, room {room}", body.escape_ascii()));
        }
    }
    Ok(())
}

fn options(mut words: impl Iterator<Item = String>) -> Option<(u64, u64)> {
    let (mut seed, mut count) = (seed::by_the_clock(), 200_000);
    while let Some(word) = words.next() {
        match word.as_str() {
            "--seed" => seed = seed::number(&words.next()?)?,
            "--count" => count = seed::number(&words.next()?)?,
            _ => return None,
        }
    }
    Some((seed, count))
}

fn main() -> ExitCode {
    let (seed, count) = match options(std::env::args().skip(1)) {
        Some(options) => options,
        None => {
            eprintln!("{USAGE}");
            return ExitCode::from(2);
        }
    };
    println!("seed {seed:#x}");
    let mut tally = Tally::default();
    match compare(&mut Random::named(seed, "routes"), count, &mut tally) {
        Ok(()) => {
            let Tally { bodies, headers, written, refused } = tally;
            println!("routes: {bodies} bodies with {headers} headers read, {written} written, {} refused with 1, {} with 2, 0 differences", refused[0], refused[1]);
            ExitCode::SUCCESS
        }
        Err(difference) => {
            println!("routes: DIFFERENCE in {difference}");
            println!("repeat with --seed {seed:#x} --count {count}");
            ExitCode::FAILURE
        }
    }
}
