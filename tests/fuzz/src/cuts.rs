//! The first kind of run: every session of the papers, the link dropped after
//! every byte of either side, in portions of every size below. The library is
//! held to the second implementation and to what the paper says itself.

use crate::pair::Pair;
use crate::report::Checked;
use inputs::random::Random;
use second::examples::request3::{self, Counted, Step};
use second::examples::{self, Example, Said, Taken};
use second::log::{Kept, Side};
use second::memory::PARTNERS;
use second::places;
use second::refusal::{self, reason_after};
use second::session::{Reply, CALLED};

const PORTIONS: [usize; 5] = [1, 2, 3, 7, 64];

/// What was cut.
#[derive(Debug, Default)]
pub struct Cuts {
    pub sessions: usize,
    pub cuts: usize,
}

pub fn run(random: &mut Random) -> Checked<Cuts> {
    let mut cuts = Cuts::default();
    for example in examples::all() {
        cuts.sessions += 1;
        for portion in PORTIONS {
            play(random, &example, portion, &mut cuts)?;
        }
        let reason = reason_after(example.answer);
        for room in (0..=reason.len()).filter(|_| !reason.is_empty()) {
            say_why(random, &example, room, &mut cuts)?;
        }
    }
    for counted in request3::all() {
        cuts.sessions += 1;
        for portion in PORTIONS {
            count(random, &counted, portion)?;
        }
    }
    Ok(cuts)
}

/// Plays a session in portions of so many bytes: at the end of what each side says the
/// library's front panel shows what was counted by hand.
fn count(random: &mut Random, counted: &Counted, portion: usize) -> Checked {
    let mut pair = Pair::new(random, &counted.buffers());
    pair.open(counted.role(), random.below(PARTNERS) as u8)?;
    pair.must(pair.library_tally() == counted.opened, counted.name)?;
    for Step { said, answer, tally } in &counted.steps {
        let (Said::Us(bytes) | Said::Partner(bytes)) = said;
        let mut answered = refusal::NONE;
        for part in bytes.chunks(portion) {
            let reply = go_on(random, &mut pair, said, part)?;
            pair.must(reply.count == part.len(), counted.name)?;
            answered = reply.answer;
        }
        pair.must(answered == *answer && pair.library_tally() == *tally, counted.name)?;
    }
    drop_link(random, &mut pair)
}

/// Plays a refused session, then takes the line that says why in rooms of so many
/// bytes. Before each give bytes arrive, and at each the link drops.
fn say_why(random: &mut Random, example: &Example, room: usize, cuts: &mut Cuts) -> Checked {
    let mut pair = Pair::new(random, &example.buffers());
    pair.open(example.role(), random.below(PARTNERS) as u8)?;
    for said in &example.script[..example.script.len().saturating_sub(1)] {
        let (Said::Us(bytes) | Said::Partner(bytes)) = said;
        go_on(random, &mut pair, said, bytes)?;
    }
    let reason = reason_after(example.answer);
    let mut given = 0;
    while given < reason.len() {
        for bytes in [&b""[..], b"\n", b"FF\r", reason] {
            let late = pair.receive(bytes, None)?;
            pair.must(
                (late.answer, late.count) == (refusal::SESSION_ENDED, 0),
                "bytes that arrive get 12",
            )?;
        }
        let place = random.below(20);
        let count = pair.give(random, (room + place, place), None)?.count;
        given += count;
        drop_link(random, &mut pair.clone())?;
        cuts.cuts += 1;
        if room == 0 {
            return pair.must(count == 0, "given without room");
        }
    }
    let ours = pair.second().map(|second| second.trace().bytes(Side::Us));
    pair.must(ours.map_or(false, |ours| ours.ends_with(reason)), "not the line that says why")?;
    check_end(random, &mut pair, example)
}

/// Plays a session in portions of so many bytes. Before each of them, the link
/// drops inside it: a copy of both ends goes on with a part of the portion only.
fn play(random: &mut Random, example: &Example, portion: usize, cuts: &mut Cuts) -> Checked {
    let mut pair = Pair::new(random, &example.buffers());
    let partner = random.below(PARTNERS);
    pair.open(example.role(), partner as u8)?;
    let mut answer = refusal::NONE;
    for said in &example.script {
        let mut rest: &[u8] = match said {
            Said::Us(bytes) | Said::Partner(bytes) => bytes,
        };
        while !rest.is_empty() {
            let (part, after) = rest.split_at(portion.min(rest.len()));
            for length in 0..part.len() {
                let mut cut = pair.clone();
                go_on(random, &mut cut, said, &part[..length])?;
                drop_link(random, &mut cut)?;
                cuts.cuts += 1;
            }
            let ours = matches!(said, Said::Us(_));
            pair.must(answer == refusal::NONE || ours, "refused before the script ends")?;
            let reply = go_on(random, &mut pair, said, part)?;
            pair.must(reply.count == part.len(), "not the bytes of the script")?;
            answer = if ours { answer } else { reply.answer };
            pair.demand_3()?;
            rest = after;
        }
    }
    pair.must(answer == example.answer, "not the answer of the script")?;
    check_end(random, &mut pair, example)?;
    drop_link(random, &mut pair)?;
    cuts.cuts += 1;
    Ok(())
}

fn go_on(random: &mut Random, pair: &mut Pair, said: &Said, part: &[u8]) -> Checked<Reply> {
    match said {
        Said::Us(_) => pair.give(random, (part.len(), 0), None),
        Said::Partner(_) => pair.receive(part, None),
    }
}

/// What must stand at the end by the script alone: our bytes, states, inbox, and
/// that the session is over.
fn check_end(random: &mut Random, pair: &mut Pair, example: &Example) -> Checked {
    let ours: Vec<u8> = example.script.iter().filter_map(ours).flatten().copied().collect();
    let given = pair.second().map(|second| second.trace().bytes(Side::Us));
    pair.must(given == Some(&ours), "not our bytes of the script")?;
    let states: Vec<u8> = example.states.iter().map(|state| *state as u8).collect();
    let partner = pair.second().map_or(0, |second| second.session.partner());
    let table = pair.lent().table.chunks(places::RECORD);
    pair.must(table.map(|record| record[partner]).eq(states), "not the states of the script")?;
    let kept = pair.library_kept().unwrap_or_default();
    let same = |kept: &Kept, taken: &Taken| {
        (&*kept.envelope.bid, &*kept.heading, &*kept.body) == (taken.0, taken.1, taken.2)
    };
    let all = kept.len() == example.inbox.len();
    let all = all && kept.iter().zip(&example.inbox).all(|(kept, taken)| same(kept, taken));
    pair.must(all, "not the inbox of the script")?;
    let more = pair.give(random, (1, 0), None)?.count + pair.receive(b"", None)?.count;
    let over = pair.receive(b"\n", None)?.answer == refusal::SESSION_ENDED;
    pair.must(more == 0 && over, "the session is not over")
}

fn ours(said: &Said) -> Option<&[u8]> {
    match said {
        Said::Us(bytes) => Some(bytes),
        Said::Partner(_) => None,
    }
}

/// What stands after a drop is the log's, and the host can open again on it, for whomever.
fn drop_link(random: &mut Random, pair: &mut Pair) -> Checked {
    pair.demand_3()?;
    pair.open(CALLED, random.below(PARTNERS) as u8).map(drop)
}
