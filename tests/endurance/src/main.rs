//! Long runs on the proved library. See `tests/endurance/run`.

#![forbid(unsafe_code)]

mod hour;
mod letters;
mod link;
mod nodes;
mod noise;
mod station;

use fuzz::report::Checked;
use inputs::random::Random;
use inputs::seed;
use std::process::ExitCode;
use std::time::Instant;

const USAGE: &str = "endurance hour|random|nodes [--count N] [--seed N]
  hour    an hour of 9,600 bit/s traffic between two of our nodes (N: bytes)
  random  random traffic, compared with the second implementation (N: bytes, default 10,000,000)
  nodes   sessions between two of our nodes, the link dropped at random bytes (N: sessions, default 1,000)";

struct Options {
    what: String,
    count: Option<usize>,
    seed: u64,
}

fn options(mut words: impl Iterator<Item = String>) -> Option<Options> {
    let seed = seed::by_the_clock();
    let mut options = Options { what: words.next()?, count: None, seed };
    while let Some(word) = words.next() {
        match word.as_str() {
            "--count" => options.count = Some(words.next()?.parse().ok()?),
            "--seed" => options.seed = seed::number(&words.next()?)?,
            _ => return None,
        }
    }
    matches!(options.what.as_str(), "hour" | "random" | "nodes").then_some(options)
}

/// What was done, or what went wrong.
type Done = Checked<Result<(), String>>;

/// AX.25's longest packet, and a byte at a time.
const PORTIONS: [usize; 2] = [256, 1];

fn hour(random: &mut Random, count: Option<usize>) -> Done {
    for portion in PORTIONS {
        let hour = match hour::run(random, count.unwrap_or(hour::HOUR), portion)? {
            Ok(hour) => hour,
            Err(said) => return Ok(Err(said)),
        };
        let hour::Hour { bytes, sessions, messages, busy } = hour;
        let busy = busy.as_secs_f64();
        println!(
            "hour: {bytes} bytes in portions of {portion}, {sessions} sessions, \
             {messages} messages, each there once, byte for byte: {busy:.2} s"
        );
    }
    Ok(Ok(()))
}

fn random(random: &mut Random, count: Option<usize>) -> Done {
    let start = Instant::now();
    let (noise, tally) = noise::run(random, count.unwrap_or(10_000_000))?;
    let noise::Noise { sessions, bytes } = noise;
    let (all, seconds) = (bytes + tally.bytes(), start.elapsed().as_secs_f64());
    println!("random: {all} bytes, 0 differences: {seconds:.1} s");
    print!("  {sessions} sessions of noise with {bytes} bytes; sessions of the fuzzer:\n{tally}");
    Ok(Ok(()))
}

fn nodes(random: &mut Random, count: Option<usize>) -> Done {
    let start = Instant::now();
    let nodes = match nodes::run(random, count.unwrap_or(1_000))? {
        Ok(nodes) => nodes,
        Err(said) => return Ok(Err(said)),
    };
    let nodes::Nodes { sessions, drops, bytes, bases, forwarded, declined, kept } = nodes;
    let seconds = start.elapsed().as_secs_f64();
    println!(
        "nodes: {sessions} sessions on {bases} bases, {drops} dropped, {bytes} bytes delivered; \
         {kept} messages kept, {forwarded} records forwarded, {declined} declined; \
         none lost, none doubled, none marked that isn't there: {seconds:.1} s"
    );
    Ok(Ok(()))
}

fn main() -> ExitCode {
    let (what, count, seed) = match options(std::env::args().skip(1)) {
        Some(Options { what, count, seed }) => (what, count, seed),
        None => {
            eprintln!("{USAGE}");
            return ExitCode::from(2);
        }
    };
    fuzz::watch::start();
    let mut numbers = Random::named(seed, &what);
    let done = match what.as_str() {
        "hour" => hour(&mut numbers, count),
        "random" => random(&mut numbers, count),
        _ => nodes(&mut numbers, count),
    };
    match done {
        Ok(Ok(())) => return ExitCode::SUCCESS,
        Ok(Err(said)) => println!("{what}: FAILED: {said}"),
        Err(difference) => println!("{what}: FAILED: {difference}"),
    }
    println!("repeat with --seed {seed:#x}");
    ExitCode::FAILURE
}
