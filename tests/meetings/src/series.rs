//! Meetings one after another, each held against the claims.

use crate::claims::{self, Course, Sheet};
use crate::end::End;
use crate::link::{self, Cut, WHOLE};
use crate::node::{Carrying, Node, Room};
use crate::wire;
use second::field::BODY_MAX;
use second::tally::Tally;

/// One meeting: whether the first node calls, what each is lent, where the link drops.
#[derive(Clone, Copy, Debug)]
pub struct Meeting {
    pub first_calls: bool,
    pub rooms: [Room; 2],
    pub cut: Cut,
}

/// How it went.
#[derive(Clone, Copy, Debug)]
pub struct Went {
    /// Bytes given by the caller and by the called end.
    pub given: [usize; 2],
    /// The link kept bytes back.
    pub was_cut: bool,
    /// FQ came whole, at either end.
    pub fq_came: bool,
    /// The refusals that ended it at both ends, or 0.
    pub refusals: [u8; 2],
    /// What the front panels showed at the end.
    pub tallies: [Tally; 2],
}

/// Two nodes as they were at the start and as they are.
#[derive(Clone)]
pub struct Series<'a> {
    start: &'a [Node; 2],
    pub now: [Node; 2],
    carrying: Carrying,
}

impl<'a> Series<'a> {
    pub fn new(start: &'a [Node; 2], carrying: Carrying) -> Series<'a> {
        Series { start, now: start.clone(), carrying }
    }

    /// One meeting; what of the claims doesn't hold after it.
    pub fn meet(
        &mut self,
        meeting: Meeting,
        portion: &mut dyn FnMut() -> usize,
    ) -> Result<Went, String> {
        let Meeting { first_calls, rooms, cut } = meeting;
        let mut first = End::open(&self.now[0], rooms[0], first_calls, self.carrying)?;
        let mut second = End::open(&self.now[1], rooms[1], !first_calls, self.carrying)?;
        let (caller, called) =
            if first_calls { (&mut first, &mut second) } else { (&mut second, &mut first) };
        let was_cut = link::run(caller, called, cut, portion)?;
        let given = [caller.given.len(), called.given.len()];
        let before = [self.now[0].states.clone(), self.now[1].states.clone()];
        first.leave(&mut self.now[0])?;
        second.leave(&mut self.now[1])?;
        claims::marks_stand(&before[0], &self.now[0].states)?;
        claims::marks_stand(&before[1], &self.now[1].states)?;
        self.hold()?;
        let fq_came = first.fq_came || second.fq_came;
        let mut tallies = [Tally::default(); 2];
        for (at, ours, theirs) in [(0, &first, &second), (1, &second, &first)] {
            let deferred = wire::deferred(&ours.given, &theirs.given[..ours.taken]);
            let proposed = wire::proposed(&ours.given);
            let sheet = Sheet { before: &before[at], proposed, deferred: deferred.len() };
            tallies[at] = ours.tally();
            claims::tallied(tallies[at], &self.now[at], sheet)?;
            if fq_came {
                claims::none_left(&self.now[at], &deferred)?;
            }
        }
        let refusals = [first.refusal, second.refusal];
        Ok(Went { given, was_cut, fq_came, refusals, tallies })
    }

    /// What holds at any time.
    fn hold(&self) -> Result<(), String> {
        let first = Course { start: &self.start[0], now: &self.now[0] };
        let second = Course { start: &self.start[1], now: &self.now[1] };
        for (ours, theirs) in [(first, second), (second, first)] {
            claims::settled(ours, theirs)?;
            claims::once(ours, theirs)?;
        }
        Ok(())
    }

    /// A meeting that isn't cut, with room for all: it ends by FQ, and only plain
    /// records and those announced as too long still wait.
    pub fn drain(
        &mut self,
        first_calls: bool,
        portion: &mut dyn FnMut() -> usize,
    ) -> Result<Went, String> {
        let rooms = [self.now[1].room_for_all(), self.now[0].room_for_all()];
        let went = self.meet(Meeting { first_calls, rooms, cut: WHOLE }, portion)?;
        let left = self.now.iter().any(|node| node.waiting().any(|l| l.size as usize <= BODY_MAX));
        if !went.fq_came || left {
            return Err(format!("a whole meeting with room for all left mail behind: {went:?}"));
        }
        Ok(went)
    }
}
