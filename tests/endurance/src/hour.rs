//! An hour of traffic between two of our nodes, both the library alone: how long
//! does it keep a processor busy?

use crate::letters::letter;
use crate::link::{self, Portion};
use crate::station::{Bare, Station};
use fuzz::report::Checked;
use inputs::random::Random;
use second::host::{Buffers, Letter};
use second::memory::{State, MESSAGES_MAX, RECORDS_MAX};
use second::record::Form;
use second::session::{CALLED, CALLER};
use std::time::{Duration, Instant};

/// 9,600 bit/s, eight bits a byte.
const BYTES_A_SECOND: usize = 1_200;
pub const HOUR: usize = 3_600 * BYTES_A_SECOND;

/// Bytes of the inbox stores: what a session may bring.
const ROOM: usize = 400_000;
/// The longest body.
const BODY: usize = 6_000;
/// Whom each end has the other for.
const PARTNER: u8 = 7;

#[derive(Debug, Default)]
pub struct Hour {
    pub bytes: usize,
    pub sessions: usize,
    pub messages: usize,
    /// In the library's calls and the handing over, without making letters.
    pub busy: Duration,
}

/// Sessions with full tables until so many bytes have crossed the link, in
/// portions of so many.
pub fn run(random: &mut Random, bytes: usize, portion: usize) -> Checked<Result<Hour, String>> {
    let mut hour = Hour::default();
    while hour.bytes < bytes {
        let mut letters = [0, RECORDS_MAX].map(|first| table(random, first));
        let [first, second] = &mut letters;
        let mut ends = [first, second].map(|letters| end(random, letters));
        let start = Instant::now();
        let [caller, called] = &mut ends;
        caller.open(CALLER, PARTNER)?;
        called.open(CALLED, PARTNER)?;
        let run = link::run(random, [caller, called], Portion::Of(portion), None)?;
        hour.busy += start.elapsed();
        hour.bytes += run.delivered;
        hour.sessions += 1;
        hour.messages += letters.iter().map(Vec::len).sum::<usize>();
        for (ours, theirs) in [(0, 1), (1, 0)] {
            let all = ends[ours].states(PARTNER).iter().all(|&state| state == State::Forwarded);
            if !run.quit || !all || !arrived(&letters[ours], &ends[theirs]) {
                return Ok(Err(format!("session {} lost mail: {run:?}", hour.sessions)));
            }
        }
    }
    Ok(Ok(hour))
}

/// A full table, its BIDs numbered from here: a BID that both ends had would be declined.
fn table(random: &mut Random, first: usize) -> Vec<Letter> {
    let mut letters = Vec::new();
    for number in first..first + RECORDS_MAX {
        let length = random.within(0, BODY);
        letters.push(letter(random, &[Form::Message, Form::File], length, number as u32));
    }
    letters
}

fn end(random: &mut Random, letters: &mut [Letter]) -> Bare {
    let mut host = Buffers::new(MESSAGES_MAX, ROOM);
    letters.iter().for_each(|letter| host.add(letter));
    Bare::new(random, &host)
}

/// All letters, in order, byte for byte.
fn arrived(letters: &[Letter], end: &Bare) -> bool {
    let kept = end.kept();
    let same = letters.iter().zip(&kept).all(|(letter, kept)| {
        (&letter.envelope, &letter.heading, &letter.body)
            == (&kept.envelope, &kept.heading, &kept.body)
    });
    same && kept.len() == letters.len()
}
