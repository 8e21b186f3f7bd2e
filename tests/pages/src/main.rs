//! Compares the proved reader of white pages and their dates with the second
//! implementation: every limit, random and damaged mails, every date both ways.

mod cases;
mod library;

use inputs::random::Random;
use inputs::seed;
use second::pages::{self, Given, Line};
use std::process::ExitCode;

const USAGE: &str = "pages [--seed N] [--count N]
  --seed N     repeat the run of this seed (as printed at its start)
  --count N    random mails (default 100000)";

/// 1970 to 2069
const DAYS: i64 = 36_525;
const DAY: i64 = 86_400;
/// Times of day that are tried on each of them.
const TIMES: [i64; 6] = [0, 1, 43_199, 43_200, 86_398, 86_399];

/// How much of each was met, so that a run that meets none of it is seen.
#[derive(Default)]
struct Tally {
    mails: u64,
    unread: u64,
    versions: u64,
    members: u64,
    skipped: u64,
    dropped: [u64; 11],
    there: u64,
    back: u64,
}

impl Tally {
    fn count(&mut self, line: &Line) {
        match line {
            Line::Version(_) => self.versions += 1,
            Line::Member(_) => self.members += 1,
            Line::Other => self.skipped += 1,
            Line::Dropped(why) => self.dropped[*why as usize - 1] += 1,
        }
    }

    fn has_all(&self) -> bool {
        let kinds = [self.unread, self.versions, self.members, self.skipped];
        kinds.iter().chain(&self.dropped).all(|&count| count > 0)
    }
}

/// Reading from a place is reading what follows it, in a mail that isn't left unread.
fn line_at(mail: &[u8], at: usize) -> Option<Given> {
    let rest = mail.get(at..).unwrap_or_default();
    let lines = second::route::lines(rest);
    let place = lines.first()?;
    let line = pages::line(&rest[place.clone()]);
    let next = at + rest.len().min(place.end + 1);
    Some(Given { place: at + place.start..at + place.end, next, line })
}

/// The survey of a mail, all its lines, and the line at a place of any kind.
fn read(mail: &[u8], place: usize, tally: &mut Tally) -> bool {
    let expected = pages::mail(mail);
    let survey = library::survey(mail);
    let mut at = 0;
    for given in &expected.lines {
        if library::next(mail, survey, at).as_ref() != Some(given) {
            return false;
        }
        at = given.next;
        tally.count(&given.line);
    }
    tally.mails += 1;
    tally.unread += u64::from(expected.unread);
    let there = if expected.unread { None } else { line_at(mail, place) };
    survey.is_of(&expected)
        && library::next(mail, survey, at).is_none()
        && library::next(mail, survey, place) == there
}

/// All six digits that could be a date.
fn every_date(tally: &mut Tally) -> Result<(), String> {
    for number in 0..1_000_000u32 {
        if number / 100 % 100 > 13 || number % 100 > 32 {
            continue;
        }
        let text = format!("{number:06}");
        let expected = pages::seconds(text.as_bytes());
        if library::seconds(text.as_bytes()) != expected {
            return Err(format!("date {text}, which is {expected:?}"));
        }
        tally.there += u64::from(expected.is_ok());
    }
    for text in [
        "",
        "9",
        "99021",
        "9902150",
        "99 215",
        "99021a",
        "/90215",
        ":90215",
        "9902-5",
        "\u{661}9021",
    ] {
        if library::seconds(text.as_bytes()) != pages::seconds(text.as_bytes()) {
            return Err(format!("date {text:?}"));
        }
    }
    Ok(())
}

/// Every day with several times of day, what lies before and after all days, and numbers of any size.
fn every_second(random: &mut Random, tally: &mut Tally) -> Result<(), String> {
    let days = (-3..DAYS + 3).flat_map(|day| TIMES.iter().map(move |time| day * DAY + time));
    let sizes = (0..64).flat_map(|bits| [i64::MAX >> bits, i64::MIN >> bits]);
    let any: Vec<i64> = (0..10_000).map(|_| random.number() as i64 >> random.below(40)).collect();
    for seconds in days.chain(sizes).chain(any) {
        let expected = pages::date(seconds);
        if library::date(seconds) != expected {
            return Err(format!("seconds {seconds}, which are {expected:?}"));
        }
        tally.back += u64::from(expected.is_ok());
    }
    Ok(())
}

/// There and back, by the library alone: one day earlier, but for the first.
fn there_and_back() -> Result<(), String> {
    let mut before = None;
    for day in 0..DAYS {
        let text = library::date(day * DAY).map_err(|answer| format!("day {day}: {answer}"))?;
        let back = library::seconds(&text).and_then(library::date);
        if back.ok() != before {
            return Err(format!("day {day} there and back"));
        }
        before = Some(text);
    }
    Ok(())
}

/// The first case on which the two don't agree.
fn compare(random: &mut Random, count: u64, tally: &mut Tally) -> Result<(), String> {
    let fixed = cases::fixed().into_iter().chain(cases::versions());
    for mail in fixed.chain([cases::SAMPLE.to_vec()]) {
        if !(0..mail.len() + 2).all(|place| read(&mail, place, tally)) {
            return Err(format!("mail {}", mail.escape_ascii()));
        }
    }
    for _ in 0..count {
        let mail = cases::mail(random);
        let place = random.below(mail.len() + 3);
        if !read(&mail, place, tally) {
            return Err(format!("mail {}, place {place}", mail.escape_ascii()));
        }
    }
    every_date(tally)?;
    every_second(random, tally)?;
    there_and_back()?;
    match tally.has_all() {
        true => Ok(()),
        false => Err("what was met: a kind of line, or a reason, never came".into()),
    }
}

fn options(mut words: impl Iterator<Item = String>) -> Option<(u64, u64)> {
    let (mut seed, mut count) = (seed::by_the_clock(), 100_000);
    while let Some(word) = words.next() {
        match word.as_str() {
            "--seed" => seed = seed::number(&words.next()?)?,
            "--count" => count = seed::number(&words.next()?)?,
            _ => return None,
        }
    }
    Some((seed, count))
}

fn main() -> ExitCode {
    let (seed, count) = match options(std::env::args().skip(1)) {
        Some(options) => options,
        None => {
            eprintln!("{USAGE}");
            return ExitCode::from(2);
        }
    };
    println!("seed {seed:#x}");
    let mut tally = Tally::default();
    match compare(&mut Random::named(seed, "pages"), count, &mut tally) {
        Ok(()) => {
            let Tally { mails, unread, versions, members, skipped, dropped, there, back } = tally;
            println!(
                "pages: {mails} mails, {unread} of them left unread, with {versions} V and {members} M records, {skipped} lines skipped and {} dropped; {there} dates there, {back} back; 0 differences",
                dropped.iter().sum::<u64>()
            );
            ExitCode::SUCCESS
        }
        Err(difference) => {
            println!("pages: DIFFERENCE in {difference}");
            println!("repeat with --seed {seed:#x} --count {count}");
            ExitCode::FAILURE
        }
    }
}
