//! Captures whose output is stored: the papers' sessions, real mailboxes, one of each
//! refusal, ends in odd places, noise.

use crate::capture::Capture;
use inputs::random::Random;
use second::examples::{self, Said};
use std::path::{Path, PathBuf};

/// A name, and what the partner says.
pub type Case = (String, Vec<u8>);

const PLAIN_SID: &[u8] = b"[TST-1-F$]\r";
const FRAMED_SID: &[u8] = b"[TST-1-BF$]\r";
const PLAIN_BLOCK: &[u8] = b"FB P F6FBB FC1GHV FC1MVP 24657_F6FBB 1345\rF>\r";
const FRAMED_BLOCK: &[u8] = b"FA P F6FBB FC1GHV FC1MVP 24657_F6FBB 1345\rF>\r";

const MEGABYTE: usize = 1 << 20;

fn joined(parts: &[&[u8]]) -> Vec<u8> {
    parts.concat()
}

/// A framed transfer as we write it.
fn framed(body: &[u8]) -> Vec<u8> {
    inputs::framed(&mut Random::named(0, "a stored transfer"), b"Title", body)
}

fn plain(body: &[u8]) -> Vec<u8> {
    second::transfer::writer::write_plain(b"Title", body)
}

/// One of each refusal that a called station with an empty table can get: 7 needs a
/// block of ours, 11 bytes of ours that wait, 12 a byte after the end.
fn refusals() -> Vec<(&'static str, Vec<u8>)> {
    let mut wrong_sum = framed(b"packed");
    *wrong_sum.last_mut().expect("its checksum") ^= 1;
    let proposal = &PLAIN_BLOCK[..PLAIN_BLOCK.len() - 3];
    let six: Vec<u8> = (0..6).flat_map(|_| proposal.iter().copied()).collect();
    vec![
        ("refusal 2: a line of 257 bytes", joined(&[PLAIN_SID, &[b'A'; 257], b"\r"])),
        ("refusal 3: no SID", b"Hello\r".to_vec()),
        ("refusal 4: no F", b"[TST-1-B$]\r".to_vec()),
        ("refusal 5: no turn line", joined(&[PLAIN_SID, b"Hello\r", b"FF\r"])),
        ("refusal 5: an FS line", joined(&[PLAIN_SID, b"FS +\r"])),
        ("refusal 5: a sign-off", joined(&[PLAIN_SID, b"*** Protocol error\r"])),
        ("refusal 6: a sixth proposal", joined(&[PLAIN_SID, &six])),
        ("refusal 6: no proposal", joined(&[PLAIN_SID, b"F>\r"])),
        ("refusal 8: no header", joined(&[FRAMED_SID, FRAMED_BLOCK, b"x"])),
        ("refusal 8: an empty title", joined(&[PLAIN_SID, PLAIN_BLOCK, b"\r"])),
        ("refusal 9", joined(&[FRAMED_SID, FRAMED_BLOCK, &wrong_sum])),
        (
            "refusal 10: 32,769 bytes",
            joined(&[FRAMED_SID, FRAMED_BLOCK, &framed(&[b'x'; 32 * 1024 + 1])]),
        ),
        ("refusal 13", joined(&[PLAIN_SID, proposal, b"F> 00\r"])),
    ]
}

/// Where a capture may end, and what may stand behind an end.
fn ends() -> Vec<(&'static str, Vec<u8>)> {
    let kept = joined(&[FRAMED_SID, FRAMED_BLOCK, &framed(b"packed")]);
    let full = joined(&[FRAMED_SID, FRAMED_BLOCK, &framed(&[b'x'; 32 * 1024])]);
    vec![
        ("whole session of 01", joined(&[PLAIN_SID, b"FF\r"])),
        ("empty", Vec::new()),
        ("end in the SID", PLAIN_SID[..5].to_vec()),
        ("end after the SID", PLAIN_SID.to_vec()),
        ("end in a proposal", joined(&[PLAIN_SID, &PLAIN_BLOCK[..20]])),
        ("end in a framed transfer", kept[..kept.len() - 4].to_vec()),
        ("end before a checksum", kept[..kept.len() - 1].to_vec()),
        ("end in a plain transfer", joined(&[PLAIN_SID, PLAIN_BLOCK, b"Title\rbody"])),
        ("a framed message, then FF", joined(&[&kept, b"FF\r"])),
        ("a framed message, then FQ", joined(&[&kept, b"FQ\r"])),
        ("a plain message, then FF", joined(&[PLAIN_SID, PLAIN_BLOCK, &plain(b"body\r"), b"FF\r"])),
        ("a store filled to its last byte", joined(&[&full, b"FF\r"])),
        ("a BID twice", joined(&[&kept, FRAMED_BLOCK, b"FF\r"])),
        ("lines that end with CR LF", b"[TST-1-F$]\r\nFF\r\n".to_vec()),
        ("lines that end with LF", b"[TST-1-F$]\nFF\n".to_vec()),
        ("bytes after the end", joined(&[PLAIN_SID, b"FF\r", b"Hello\r", PLAIN_SID])),
        ("comments", joined(&[b";a\r", PLAIN_SID, b";PQ: 1\r", b"FF\r"])),
    ]
}

fn noise() -> Vec<(&'static str, Vec<u8>)> {
    let mut noise = vec![0; MEGABYTE];
    Random::named(1, "noise").fill(&mut noise);
    let comment = b"; 73 de the club on a noisy channel, nothing for you to answer\r";
    let comments: Vec<u8> = comment.iter().copied().cycle().take(MEGABYTE).collect();
    vec![
        ("a megabyte of noise", noise.clone()),
        ("a megabyte of noise after the SID", joined(&[PLAIN_SID, &noise])),
        (
            "a megabyte of noise in a transfer",
            joined(&[PLAIN_SID, PLAIN_BLOCK, b"Title\r", &noise]),
        ),
        ("a megabyte of comments", joined(&[PLAIN_SID, &comments])),
    ]
}

/// The papers' sessions in which we are called, as far as the partner speaks.
fn documented() -> Vec<Case> {
    let said = |said: &Said| match said {
        Said::Partner(bytes) => bytes.clone(),
        Said::Us(_) => Vec::new(),
    };
    let called = examples::all().into_iter().filter(|example| !example.we_called);
    called
        .map(|example| {
            let bytes = example.script.iter().flat_map(said).collect();
            (format!("documented: {}", example.name), bytes)
        })
        .collect()
}

/// Real mailboxes. Those that we called begin with their greeting.
pub fn real() -> Result<Vec<Case>, String> {
    let folder = Path::new(env!("CARGO_MANIFEST_DIR")).join("../peers/captures");
    let entries = std::fs::read_dir(&folder).map_err(|e| format!("{}: {e}", folder.display()))?;
    let mut paths: Vec<PathBuf> = entries.flatten().map(|entry| entry.path()).collect();
    paths.retain(|path| path.extension().map_or(false, |extension| extension == "json"));
    paths.sort();
    let case = |path: &PathBuf| {
        let capture = Capture::load(path)?;
        Ok((format!("real: {}", capture.name), capture.bytes(false)))
    };
    paths.iter().map(case).collect()
}

pub fn all() -> Result<Vec<Case>, String> {
    let made = [ends(), refusals(), noise()].concat();
    let made = made.into_iter().map(|(name, bytes)| (name.to_owned(), bytes));
    Ok(made.chain(documented()).chain(real()?).collect())
}
