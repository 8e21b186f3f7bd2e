//! Replays every capture of `tests/peers/captures` on the proved library and on
//! the second implementation, compares them after every call, and holds the
//! outcome to the stored one.

#![forbid(unsafe_code)]

mod capture;
mod edits;
mod json;
mod replay;
mod shelf;
mod stored;

use capture::Capture;
use inputs::random::Random;
use std::path::{Path, PathBuf};
use std::process::ExitCode;
use stored::{Entry, Stored};

const USAGE: &str = "captures [--write]
  --write  store what was found; the sentences that explain it stay";

/// Each capture is played in portions of these many bytes: the outcome is one.
const PORTIONS: [usize; 6] = [1, 2, 3, 7, 64, usize::MAX];

fn folder() -> PathBuf {
    Path::new(env!("CARGO_MANIFEST_DIR")).to_path_buf()
}

fn load() -> Result<Vec<Capture>, String> {
    let folder = folder().join("../peers/captures");
    let entries = std::fs::read_dir(&folder).map_err(|e| format!("{}: {e}", folder.display()))?;
    let mut paths: Vec<PathBuf> = entries.flatten().map(|entry| entry.path()).collect();
    paths.retain(|path| path.extension().map_or(false, |extension| extension == "json"));
    paths.sort();
    paths.iter().map(|path| Capture::load(path)).collect()
}

/// The capture, and then with one more of 01's open points edited each time; last, all of
/// them with another letter in a BID.
fn variants(capture: &Capture) -> Vec<(String, Capture)> {
    let mut variants = vec![("as captured".to_owned(), capture.clone())];
    let (mut names, mut edited) = (Vec::new(), capture.clone());
    for (name, edit) in edits::ALL {
        if let Some(more) = edit(&edited) {
            names.push(name);
            edited = more;
            variants.push((names.join(", "), edited.clone()));
        }
    }
    if let Some(changed) = edits::letter(&edited) {
        names.push("another letter in a BID");
        variants.push((names.join(", "), changed));
    }
    variants
}

/// Plays a capture in each way and says what came of it.
fn entry(capture: &Capture, plays: &mut usize) -> Result<Entry, String> {
    let mut lines = Vec::new();
    for (variant, capture) in variants(capture) {
        let mut outcomes = Vec::new();
        for portion in PORTIONS {
            let mut random = Random::named(portion as u64, &capture.name);
            let outcome = replay::play(&mut random, &capture, portion)
                .map_err(|difference| format!("{}, {variant}: {difference}", capture.name))?;
            *plays += 1;
            outcomes.push(outcome);
        }
        if let Some(other) = outcomes.iter().find(|outcome| **outcome != outcomes[0]) {
            let (name, first) = (&capture.name, &outcomes[0]);
            return Err(format!("{name}, {variant}: portions differ:\n  {first}\n  {other}"));
        }
        lines.push(format!("{variant}: {}", outcomes[0]));
    }
    Ok(Entry { lines, why: String::new() })
}

fn run(write: bool) -> Result<String, String> {
    let captures = load()?;
    let (mut found, mut plays) = (Stored::new(), 0);
    for capture in &captures {
        found.insert(capture.name.clone(), entry(capture, &mut plays)?);
    }
    let file = folder().join("outcomes.txt");
    let stored = stored::read(&std::fs::read_to_string(&file).unwrap_or_default())?;
    if write {
        for (name, entry) in &mut found {
            entry.why = stored.get(name).map_or(String::new(), |stored| stored.why.clone());
        }
        std::fs::write(&file, stored::write(&found)).map_err(|e| e.to_string())?;
        return Ok(format!("{} outcomes written to {}", found.len(), file.display()));
    }
    let differences = stored::differences(&found, &stored);
    if !differences.is_empty() {
        return Err(differences.join("\n"));
    }
    Ok(format!("captures: {} replayed in {plays} plays, 0 differences", captures.len()))
}

fn main() -> ExitCode {
    let words: Vec<String> = std::env::args().skip(1).collect();
    let write = match words.iter().map(String::as_str).collect::<Vec<_>>()[..] {
        [] => false,
        ["--write"] => true,
        _ => {
            eprintln!("{USAGE}");
            return ExitCode::from(2);
        }
    };
    fuzz::watch::start();
    match run(write) {
        Ok(said) => {
            println!("{said}");
            ExitCode::SUCCESS
        }
        Err(said) => {
            println!("{said}");
            println!("captures: FAILED");
            ExitCode::FAILURE
        }
    }
}
