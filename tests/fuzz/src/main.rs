//! Plays whole sessions on the proved library and on the second implementation
//! and compares them after every call: the papers' sessions cut at every byte,
//! random sessions, and random changes of the lent memory.

#![forbid(unsafe_code)]

use fuzz::changed::{self, Changed};
use fuzz::report::Checked;
use fuzz::tally::{Tally, ENOUGH};
use fuzz::{cuts, sessions, watch};
use inputs::random::Random;
use inputs::seed;
use std::process::ExitCode;
use std::time::{Duration, Instant};

const USAGE: &str = "fuzz [--seed N] [--sessions N] [--from N] [--minutes N] [--verbose]
  --seed N      repeat the run of this seed (as printed at its start)
  --sessions N  random sessions (default 20000), and a quarter as many with changed memory
  --from N      start with session N, to repeat one
  --minutes N   instead of a number of sessions, as many as N minutes hold
  --verbose     print each session's number before it, to find one that crashes";

/// A run of changed memory for so many sessions.
const CHANGED_EVERY: u64 = 4;

struct Options {
    seed: u64,
    from: u64,
    sessions: u64,
    minutes: Option<u64>,
    verbose: bool,
}

fn options(mut words: impl Iterator<Item = String>) -> Option<Options> {
    let (seed, from, sessions) = (seed::by_the_clock(), 0, 20_000);
    let mut options = Options { seed, from, sessions, minutes: None, verbose: false };
    while let Some(word) = words.next() {
        match word.as_str() {
            "--seed" => options.seed = seed::number(&words.next()?)?,
            "--sessions" => options.sessions = seed::number(&words.next()?)?,
            "--from" => options.from = seed::number(&words.next()?)?,
            "--minutes" => options.minutes = Some(seed::number(&words.next()?)?),
            "--verbose" => options.verbose = true,
            _ => return None,
        }
    }
    Some(options)
}

/// The random sessions, each with random numbers of its own. Says at which one
/// it stopped.
fn random_sessions(options: &Options, tally: &mut Tally, changed: &mut Changed) -> (u64, Checked) {
    let start = Instant::now();
    let time = options.minutes.map(|minutes| Duration::from_secs(60 * minutes));
    let mut session = options.from;
    loop {
        let more = match time {
            Some(time) => start.elapsed() < time,
            None => session < options.from + options.sessions,
        };
        if !more {
            return (session, Ok(()));
        }
        watch::session(session, options.verbose);
        let mut random = Random::named(options.seed, &format!("session {session}"));
        let mut checked = sessions::run(&mut random, tally);
        if checked.is_ok() && session % CHANGED_EVERY == 0 {
            let mut random = Random::named(options.seed, &format!("changed {session}"));
            checked = changed::run(&mut random, &mut Tally::default(), changed);
        }
        if checked.is_err() {
            return (session, checked);
        }
        session += 1;
    }
}

/// How a run ended, when no difference was found.
enum Reach {
    Far,
    /// Long enough, but these never came.
    Short(Vec<String>),
}

fn run(options: &Options) -> Checked<Reach> {
    let cuts = cuts::run(&mut Random::named(options.seed, "cuts"))?;
    println!("every cut: {} sessions of the papers, {} cuts", cuts.sessions, cuts.cuts);
    let (mut tally, mut changed) = (Tally::default(), Changed::default());
    let (session, checked) = random_sessions(options, &mut tally, &mut changed);
    if let Err(difference) = checked {
        println!("session {session}: repeat with --from {session} --sessions 1");
        return Err(difference);
    }
    print!("random sessions:\n{tally}changed memory:\n{changed}");
    let sessions = cuts.sessions as u64 + tally.sessions + changed.sessions;
    println!("fuzz: {sessions} sessions, 0 differences");
    let never_met = [tally.never_met(), changed.never_met()].concat();
    Ok(match tally.sessions >= ENOUGH && !never_met.is_empty() {
        true => Reach::Short(never_met),
        false => Reach::Far,
    })
}

fn main() -> ExitCode {
    let options = match options(std::env::args().skip(1)) {
        Some(options) => options,
        None => {
            eprintln!("{USAGE}");
            return ExitCode::from(2);
        }
    };
    println!("seed {:#x}", options.seed);
    watch::start();
    match run(&options) {
        Ok(Reach::Far) => ExitCode::SUCCESS,
        Ok(Reach::Short(never_met)) => {
            println!("fuzz: FAILED, never met: {}", never_met.join("; "));
            ExitCode::FAILURE
        }
        Err(difference) => {
            println!("{difference}");
            println!("repeat with --seed {:#x}", options.seed);
            ExitCode::FAILURE
        }
    }
}
