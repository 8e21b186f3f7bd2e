//! The outcomes as the repository stores them (`tests/captures/outcomes.txt`).
//!
//! A paragraph a capture: its name; the capture unchanged, then edited; last, one
//! sentence by hand that says why. The test writes all but the sentence.

use std::collections::BTreeMap;
use std::fmt::Write;

const HEAD: &str = "\
# What our node makes of each capture of tests/peers/captures, as caller or called, with the messages on its shelf that the
# stand-in proposed and the BIDs known that it declined. The proved library and the second implementation must both give this.
# 'as captured' is the mailbox unchanged; below it, the same with the points edited where it leaves 01 (docs/INTEROP.md), one more a
# line, and last with one letter of a BID changed on the way, which its checksum must find (13). 'said N of M bytes as captured' compares
# with the stand-in, our SID put for its own. After a refusal stands the line that we then say (Q-1); where we proposed something, what the
# front panel shows (Q-3).
# Written by `cargo run --release --manifest-path tests/captures/Cargo.toml -- --write`; the sentences after 'why:' by hand.
";

/// One capture: how it was played, and what came of it.
#[derive(Clone, Debug, Default, PartialEq, Eq)]
pub struct Entry {
    pub lines: Vec<String>,
    pub why: String,
}

pub type Stored = BTreeMap<String, Entry>;

pub fn read(text: &str) -> Result<Stored, String> {
    let mut stored = Stored::new();
    let mut name = None;
    for line in text.lines().filter(|line| !line.is_empty() && !line.starts_with('#')) {
        let line = match line.strip_prefix("  ") {
            Some(line) => line,
            None => {
                if stored.insert(line.to_owned(), Entry::default()).is_some() {
                    return Err(format!("{line} stands twice"));
                }
                name = Some(line.to_owned());
                continue;
            }
        };
        let entry = name.as_ref().and_then(|name| stored.get_mut(name));
        let entry = entry.ok_or(format!("no capture's name before: {line}"))?;
        match line.strip_prefix("why: ") {
            Some(why) => entry.why = why.to_owned(),
            None => entry.lines.push(line.to_owned()),
        }
    }
    Ok(stored)
}

pub fn write(stored: &Stored) -> String {
    let mut text = HEAD.to_owned();
    for (name, Entry { lines, why }) in stored {
        let _ = writeln!(text, "\n{name}");
        for line in lines {
            let _ = writeln!(text, "  {line}");
        }
        let _ = writeln!(text, "  why: {why}");
    }
    text
}

/// Each point at which what was found isn't what is stored.
pub fn differences(found: &Stored, stored: &Stored) -> Vec<String> {
    let mut differences = Vec::new();
    for (name, entry) in found {
        match stored.get(name) {
            None => differences.push(format!("{name}: no outcome is stored")),
            Some(stored) if stored.why.trim().is_empty() => {
                differences.push(format!("{name}: the outcome isn't explained"));
            }
            Some(stored) if stored.lines != entry.lines => {
                let (found, stored) = (entry.lines.join("\n    "), stored.lines.join("\n    "));
                differences.push(format!("{name}\n  found:\n    {found}\n  stored:\n    {stored}"));
            }
            Some(_) => {}
        }
    }
    let gone = stored.keys().filter(|name| !found.contains_key(*name));
    differences.extend(gone.map(|name| format!("{name}: stored, but there is no such capture")));
    differences
}

#[cfg(test)]
mod tests {
    use super::*;

    fn one(line: &str, why: &str) -> Stored {
        let entry = Entry { lines: vec![line.into()], why: why.into() };
        Stored::from([("a-capture".into(), entry)])
    }

    #[test]
    fn what_is_written_reads_back() {
        let stored = one("as captured: caller; refusal 5", "Because.");
        assert_eq!(read(&write(&stored)), Ok(stored));
    }

    #[test]
    fn every_kind_of_difference_is_said() {
        assert_eq!(differences(&one("a", ""), &one("a", "So.")), [""; 0]);
        assert_eq!(differences(&one("a", ""), &one("b", "So.")).len(), 1);
        assert_eq!(differences(&one("a", ""), &one("a", "")).len(), 1);
        assert_eq!(differences(&one("a", ""), &Stored::new()).len(), 1);
        assert_eq!(differences(&Stored::new(), &one("a", "So.")).len(), 1);
    }
}
