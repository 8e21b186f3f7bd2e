//! The proved replay program on stored captures, held to stored outputs, and on random
//! and damaged ones, held to the second implementation's replay.

#![forbid(unsafe_code)]

// What reads a capture is shared with tests/captures, which needs more of it.
#[allow(dead_code)]
#[path = "../../captures/src/capture.rs"]
mod capture;
mod cases;
#[allow(dead_code)]
#[path = "../../captures/src/json.rs"]
mod json;
mod program;
mod random_captures;
mod station;

use cases::Case;
use inputs::random::Random;
use program::Program;
use std::collections::BTreeMap;
use std::path::{Path, PathBuf};
use std::process::ExitCode;

const USAGE: &str = "replay [--write | --count N [--seed N]]
  --write    store the outputs found
  --count N  random and damaged captures (10000)
  --seed N   of these (0)";

/// Between a capture's name and what comes out.
const MARK: &str = " | ";

fn file() -> PathBuf {
    Path::new(env!("CARGO_MANIFEST_DIR")).join("outputs.txt")
}

/// The program's output, if the second implementation has the same.
fn both(program: &Program, name: &str, capture: &[u8]) -> Result<Vec<u8>, String> {
    let (ours, second) = (program.replay(capture)?, station::replay(capture));
    if ours == second {
        return Ok(ours);
    }
    let shown = |bytes: &[u8]| bytes.escape_ascii().to_string();
    let capture = shown(&capture[..capture.len().min(2000)]);
    Err(format!("{name}: {capture}\n  program: {}\n  second: {}", shown(&ours), shown(&second)))
}

fn stored() -> BTreeMap<String, String> {
    let text = std::fs::read_to_string(file()).unwrap_or_default();
    let lines = text.lines().filter(|line| !line.starts_with('#'));
    lines
        .filter_map(|line| line.split_once(MARK))
        .map(|(name, output)| (name.to_owned(), output.to_owned()))
        .collect()
}

fn run_stored(program: &Program, write: bool) -> Result<String, String> {
    let mut stored = stored();
    let cases = cases::all()?;
    let mut text =
        "# What the replay program writes on each stored capture (tests/replay), escaped.\n\
        # Written by `tests/replay/run --write`.\n"
            .to_owned();
    for (name, capture) in &cases {
        let output = both(program, name, capture)?.escape_ascii().to_string();
        text.push_str(&format!("{name}{MARK}{output}\n"));
        if !write && stored.remove(name).as_ref() != Some(&output) {
            return Err(format!("{name}: not as stored: {output}"));
        }
    }
    if write {
        std::fs::write(file(), text).map_err(|e| e.to_string())?;
    } else if let Some(name) = stored.keys().next() {
        return Err(format!("{name}: stored, but no capture"));
    }
    Ok(format!("replay: {} stored captures, 0 differences", cases.len()))
}

/// What came of the random captures, so that a run shows what it has met.
fn run_random(program: &Program, count: u64, seed: u64) -> Result<String, String> {
    let real: Vec<Case> = cases::real()?;
    let mut ends: BTreeMap<u32, usize> = BTreeMap::new();
    for number in 0..count {
        let name = format!("random capture {number} of seed {seed}");
        let mut random = Random::named(seed, &name);
        let output = both(program, &name, &random_captures::capture(&mut random, &real))?;
        let text = String::from_utf8_lossy(&output);
        let refusal = text.trim_end().rsplit(' ').next().and_then(|word| word.parse().ok());
        *ends.entry(refusal.ok_or(format!("{name}: no refusal line"))?).or_insert(0) += 1;
    }
    let ends: Vec<String> = ends.iter().map(|(refusal, n)| format!("{refusal}: {n}")).collect();
    Ok(format!("replay: {count} random captures, 0 differences (refusals {})", ends.join(", ")))
}

fn run(words: &[&str]) -> Result<String, String> {
    let number = |word: &str| inputs::seed::number(word).ok_or(format!("{word}: no number"));
    let program = Program::find()?;
    match *words {
        [] => {
            println!("{}", run_stored(&program, false)?);
            run_random(&program, 10_000, 0)
        }
        ["--write"] => run_stored(&program, true),
        ["--count", count] => {
            println!("{}", run_stored(&program, false)?);
            run_random(&program, number(count)?, 0)
        }
        ["--count", count, "--seed", seed] => run_random(&program, number(count)?, number(seed)?),
        _ => Err(USAGE.to_owned()),
    }
}

fn main() -> ExitCode {
    let words: Vec<String> = std::env::args().skip(1).collect();
    let words: Vec<&str> = words.iter().map(String::as_str).collect();
    match run(&words) {
        Ok(said) => {
            println!("{said}");
            ExitCode::SUCCESS
        }
        Err(said) => {
            println!("{said}\nreplay: FAILED");
            ExitCode::FAILURE
        }
    }
}
