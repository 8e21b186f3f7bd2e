//! Compares the proved library with the second implementation: every function
//! of the C interface, on every limit of 01 and on random and damaged inputs.

#![forbid(unsafe_code)]

mod answers;
mod examples;
mod fields;
mod lent;
mod lines;
mod report;
mod rounds;
mod run;
mod sids;
mod stores;
mod transfer_cases;
mod transfers;
mod turns;
mod writers;

use compare::random::Random;
use inputs::seed;
use report::{Checked, Tally};
use run::Run;
use std::process::ExitCode;

const USAGE: &str = "compare [--seed N] [--count N] | --examples
  --seed N     repeat the run of this seed (as printed at its start)
  --count N    random inputs for each function (default 100000)
  --examples   print and check 01's examples that are not proved";

type Check = fn(&mut Run) -> Checked;

/// Run once: every limit below, at and above.
const LIMITS: &[(&str, Check)] = &[
    ("field limits", fields::limits),
    ("line limits", lines::limits),
    ("SID limits", sids::limits),
    ("turn line limits", turns::limits),
    ("FS limits", answers::limits),
    ("transfer limits", transfer_cases::limits),
    ("writer limits", writers::limits),
    ("store limits", stores::limits),
    ("fixed lines", rounds::fixed),
];

/// Run `--count` times each, on a random input.
const RANDOM: &[(&str, Check)] = &[
    ("bytes", fields::random_bytes),
    ("fields", fields::random_fields),
    ("BIDs", fields::random_bids),
    ("lines", lines::random_lines),
    ("line bytes", lines::random_bytes),
    ("SIDs", sids::random),
    ("turn lines", turns::random),
    ("FS lines", answers::random),
    ("plain transfers", transfer_cases::random_plain),
    ("framed transfers", transfer_cases::random_framed),
    ("fixed writer", writers::random_fixed),
    ("proposal writer", writers::random_proposals),
    ("FS writer", writers::random_fs),
    ("plain writer", writers::random_plain),
    ("framed writer", writers::random_framed),
    ("checksums", stores::random_sums),
    ("headings", stores::random_headings),
    ("proposals round", rounds::proposals),
    ("FS round", rounds::answers),
    ("plain round", rounds::plain),
    ("framed round", rounds::framed),
];

struct Options {
    seed: u64,
    count: u64,
    examples: bool,
}

fn options(mut words: impl Iterator<Item = String>) -> Option<Options> {
    let mut options = Options { seed: seed::by_the_clock(), count: 100_000, examples: false };
    while let Some(word) = words.next() {
        match word.as_str() {
            "--seed" => options.seed = seed::number(&words.next()?)?,
            "--count" => options.count = seed::number(&words.next()?)?,
            "--examples" => options.examples = true,
            _ => return None,
        }
    }
    Some(options)
}

/// All checks, each with random numbers of its own; stops at a difference.
fn compare(run: &mut Run, seed: u64) -> Checked {
    for (name, check) in LIMITS {
        run.random = Random::named(seed, name);
        check(run)?;
    }
    for (name, check) in RANDOM {
        run.random = Random::named(seed, name);
        run.repeat(*check)?;
    }
    Ok(())
}

fn main() -> ExitCode {
    let options = match options(std::env::args().skip(1)) {
        Some(options) => options,
        None => {
            eprintln!("{USAGE}");
            return ExitCode::from(2);
        }
    };
    if options.examples {
        return if examples::run() { ExitCode::SUCCESS } else { ExitCode::FAILURE };
    }
    println!("seed {:#x}", options.seed);
    let mut run = Run {
        random: Random::named(options.seed, ""),
        count: options.count,
        tally: Tally::default(),
    };
    match compare(&mut run, options.seed) {
        Ok(()) => {
            print!("{}", run.tally);
            println!("compare: {} inputs, 0 differences", run.tally.total());
            ExitCode::SUCCESS
        }
        Err(difference) => {
            println!("{difference}");
            println!("repeat with --seed {:#x} --count {}", options.seed, options.count);
            ExitCode::FAILURE
        }
    }
}
