//! Two of our nodes, session after session, over a link that drops at random
//! bytes. No record is lost, none doubled, none marked that isn't there.

use crate::letters::letter;
use crate::link::{self, Portion, Run};
use crate::station::{Compared, Station};
use fuzz::pair::Pair;
use fuzz::report::Checked;
use inputs::random::Random;
use second::host::{Buffers, Letter};
use second::log::Kept;
use second::memory::{State, MESSAGES_MAX, RECORDS_MAX};
use second::places;
use second::record::Form;
use second::refusal;
use second::session::{CALLED, CALLER};

/// Both nodes have B in their SID, so plain records don't go between them.
const FORMS: [Form; 3] = [Form::Plain, Form::Message, Form::File];

/// Sessions of one pair of bases before the last, which isn't dropped.
const DROPPED: usize = 100;
/// Whom each end has the other for.
const PARTNER: u8 = 3;
/// A session is dropped within so many bytes, or anywhere.
const EARLY: [usize; 4] = [60, 300, 1_500, usize::MAX];

/// A base: the table with its states, and all that was ever kept.
#[derive(Debug, Default)]
struct Base {
    letters: Vec<Letter>,
    states: Vec<State>,
    kept: Vec<Kept>,
}

#[derive(Debug, Default)]
pub struct Nodes {
    pub sessions: usize,
    pub drops: usize,
    pub bytes: usize,
    pub bases: usize,
    pub forwarded: usize,
    pub declined: usize,
    pub kept: usize,
}

/// So many sessions, on one pair of bases after the other.
pub fn run(random: &mut Random, sessions: usize) -> Checked<Result<Nodes, String>> {
    let mut nodes = Nodes::default();
    while nodes.sessions < sessions {
        if let Err(said) = pair_of_bases(random, &mut nodes)? {
            let number = nodes.sessions;
            return Ok(Err(format!("after session {number}: {said}")));
        }
    }
    Ok(Ok(nodes))
}

fn pair_of_bases(random: &mut Random, nodes: &mut Nodes) -> Checked<Result<(), String>> {
    let mut bases = [Base::default(), Base::default()];
    let mut number = 0;
    for base in &mut bases {
        for _ in 0..random.within(0, RECORDS_MAX) {
            number += 1;
            base.letters.push(a_letter(random, number));
            base.states.push(State::Waiting);
        }
    }
    share_bids(random, &mut bases);
    nodes.bases += 2;
    for session in 0..=DROPPED {
        let last = session == DROPPED || bases.iter().all(|base| base.waiting() == 0);
        let run = one_session(random, &mut bases, last)?;
        nodes.sessions += 1;
        nodes.bytes += run.delivered;
        nodes.drops += usize::from(!run.quit);
        let checked = check(&bases[0], &bases[1]).and(check(&bases[1], &bases[0]));
        let checked = checked.and(if last { drained(&bases, run) } else { Ok(()) });
        if checked.is_err() {
            return Ok(checked);
        }
        if last {
            break;
        }
    }
    for base in &bases {
        nodes.forwarded += base.states.iter().filter(|&&s| s == State::Forwarded).count();
        nodes.declined += base.states.iter().filter(|&&s| s == State::Declined).count();
        nodes.kept += base.kept.len();
    }
    Ok(Ok(()))
}

fn a_letter(random: &mut Random, number: u32) -> Letter {
    let length = match random.below(16) {
        0 => 0,
        1 => random.within(254, 258),
        2 => random.within(1_000, 3_000),
        _ => random.within(1, 200),
    };
    letter(random, &FORMS, length, number)
}

/// A few bulletins are at both nodes already.
fn share_bids(random: &mut Random, bases: &mut [Base; 2]) {
    let [ours, theirs] = bases;
    for (letter, other) in ours.letters.iter_mut().zip(&theirs.letters) {
        if random.once_in(20) {
            letter.envelope.bid = other.envelope.bid.clone();
        }
    }
}

/// A session on both bases. The last isn't dropped and has all the room it needs.
fn one_session(random: &mut Random, bases: &mut [Base; 2], last: bool) -> Checked<Run> {
    let all = 60 + bases[0].waiting() + bases[1].waiting();
    let within = all.min(random.pick(&EARLY));
    let drop_after = (!last).then(|| 1 + random.below(within));
    let [first, second] = &*bases;
    let mut ends = [first, second].map(|base| base.end(random, last.then_some(all)));
    let caller = random.below(2);
    let [first, second] = &mut ends;
    let order = if caller == 0 { [first, second] } else { [second, first] };
    let portion = match random.below(8) {
        0 => Portion::Of(1),
        1 | 2 => Portion::UpTo(20),
        _ => Portion::UpTo(600),
    };
    let run = {
        let [caller, called] = order;
        caller.open(CALLER, PARTNER)?;
        called.open(CALLED, PARTNER)?;
        link::run(random, [caller, called], portion, drop_after)?
    };
    for (base, end) in bases.iter_mut().zip(&ends) {
        end.0.demand_3()?;
        base.states = end.states();
        base.kept.extend(end.kept());
    }
    Ok(run)
}

impl Base {
    /// Buffers for a session: the table as it stands, and what was kept as known
    /// BIDs. Where no room is asked for, it is short at times.
    fn end(&self, random: &mut Random, room: Option<usize>) -> Compared {
        let (places, room) = match (room, random.below(4)) {
            (Some(room), _) => (MESSAGES_MAX, room),
            (None, 0) => (random.within(0, 4), random.within(0, 2_000)),
            (None, _) => (MESSAGES_MAX, 15_000),
        };
        let mut host = Buffers::new(places, room);
        self.letters.iter().for_each(|letter| host.add(letter));
        for (entry, state) in host.table.chunks_mut(places::RECORD).zip(&self.states) {
            entry[usize::from(PARTNER)] = *state as u8;
        }
        self.kept.iter().for_each(|kept| host.know(&kept.envelope.bid));
        Compared(Pair::new(random, &host))
    }

    /// Bytes that a session would send, about.
    fn waiting(&self) -> usize {
        let all = self.letters.iter().zip(&self.states);
        let waiting = all.filter(|(letter, &state)| {
            state == State::Waiting && letter.envelope.form != Form::Plain
        });
        waiting.map(|(letter, _)| 80 + letter.heading.len() + letter.body.len()).sum()
    }

    /// How often this BID was kept.
    fn copies(&self, bid: &[u8]) -> usize {
        self.kept.iter().filter(|kept| kept.envelope.bid == bid).count()
    }

    fn has_in_table(&self, bid: &[u8]) -> bool {
        self.letters.iter().any(|letter| letter.envelope.bid == bid)
    }
}

/// What must hold between our records and what the other end has, at any time.
fn check(ours: &Base, theirs: &Base) -> Result<(), String> {
    for kept in &theirs.kept {
        let letter = ours.letters.iter().find(|letter| letter.envelope == kept.envelope);
        let same = letter.map_or(false, |l| l.heading == kept.heading && l.body == kept.body);
        let bid = kept.envelope.bid.escape_ascii();
        if !same {
            return Err(format!("{bid} was kept changed"));
        }
        if theirs.copies(&kept.envelope.bid) != 1 {
            return Err(format!("{bid} was kept twice"));
        }
    }
    for (letter, state) in ours.letters.iter().zip(&ours.states) {
        let bid = &letter.envelope.bid;
        let there = theirs.copies(bid) == 1;
        let right = match state {
            State::Waiting => true,
            State::Forwarded => there,
            State::Declined => there || theirs.has_in_table(bid),
        };
        if !right {
            return Err(format!("{} is {state:?} and isn't there", bid.escape_ascii()));
        }
    }
    Ok(())
}

/// After a session that ended by FQ with all the room it needs, only plain
/// records wait, and every other one is at the other end.
fn drained(bases: &[Base; 2], run: Run) -> Result<(), String> {
    if !run.quit || run.refusal != refusal::NONE {
        return Err(format!("the last session didn't end by FQ: {run:?}"));
    }
    for base in bases {
        for (letter, &state) in base.letters.iter().zip(&base.states) {
            let plain = letter.envelope.form == Form::Plain;
            if plain != (state == State::Waiting) {
                let bid = letter.envelope.bid.escape_ascii();
                return Err(format!("{bid} is {state:?} after the last session"));
            }
        }
    }
    Ok(())
}
