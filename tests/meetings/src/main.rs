//! Two of our nodes, both the library, over a link that drops: every pair of cuts
//! of small worlds and then a whole meeting, and random series. After each meeting
//! states and kept messages are held against the claims of request Q-13. Before that,
//! over a link that alters a byte, that the line that says why does no harm.

#![forbid(unsafe_code)]

mod claims;
mod end;
mod link;
mod node;
mod reasons;
mod series;
mod wire;
mod worlds;

use inputs::random::Random;
use inputs::seed;
use link::{Cut, WHOLE};
use node::{Carrying, Node, Room};
use reasons::Reasons;
use second::memory::{State, MESSAGES_MAX};
use second::refusal::STORE_FULL;
use second::tally::Tally as Panel;
use series::{Meeting, Series, Went};
use std::process::ExitCode;
use worlds::Small;

const USAGE: &str = "meetings [--cuts N] [--seed N]
  so many dropped links at least (default 100,000): random series for a tenth of
  them, then every pair of cuts of one small world after the other";

/// Faults said; the others are counted.
const SAID: u64 = 10;
/// One of so many cuts is of a random series.
const RANDOM_SHARE: u64 = 10;
/// Enough for every byte that waits.
const ALL: usize = 70_000;
/// Meetings of a random series before the whole one, at most.
const SERIES: usize = 8;
/// A random link drops within so many bytes, or anywhere.
const EARLY: [usize; 5] = [20, 100, 400, 2_000, 20_000];

struct Options {
    cuts: u64,
    seed: u64,
    carrying: Carrying,
}

fn options(mut words: impl Iterator<Item = String>) -> Option<Options> {
    let mut options =
        Options { cuts: 100_000, seed: seed::by_the_clock(), carrying: Carrying::Whole };
    while let Some(word) = words.next() {
        match word.as_str() {
            "--cuts" => options.cuts = words.next()?.parse().ok()?,
            "--seed" => options.seed = seed::number(&words.next()?)?,
            // Not in the usage: a wrong host, to see that the claims can fail.
            "--forgets" => options.carrying = Carrying::Forgets,
            _ => return None,
        }
    }
    Some(options)
}

#[derive(Default)]
struct Tally {
    cuts: u64,
    sessions: u64,
    faults: u64,
    /// Meetings that FQ ended, and those that a body byte without room ended.
    farewells: u64,
    overruns: u64,
    /// What became of the records of whole series.
    forwarded: usize,
    declined: usize,
    /// Ends of meetings with records deferred, and with records not settled.
    deferred: u64,
    unsettled: u64,
}

impl Tally {
    /// Counts a meeting. None where a claim doesn't hold.
    fn note(&mut self, world: &str, went: Result<Went, String>) -> Option<Went> {
        self.sessions += 1;
        match went {
            Ok(went) => {
                self.cuts += u64::from(went.was_cut);
                self.farewells += u64::from(went.fq_came);
                self.overruns += u64::from(went.refusals.contains(&STORE_FULL));
                for Panel { sheet, .. } in went.tallies {
                    self.deferred += u64::from(sheet.deferred > 0);
                    self.unsettled += u64::from(sheet.unsettled > 0);
                }
                Some(went)
            }
            Err(said) => {
                self.fault(world, &said);
                None
            }
        }
    }

    /// Counts the whole meeting that ends a series, and what became of its records.
    fn end(&mut self, world: &str, series: &Series<'_>, went: Result<Went, String>) {
        if self.note(world, went).is_some() {
            let states = series.now.iter().flat_map(|node| &node.states);
            let count = |state| states.clone().filter(|&&other| other == state).count();
            self.forwarded += count(State::Forwarded);
            self.declined += count(State::Declined);
        }
    }

    fn fault(&mut self, world: &str, said: &str) {
        self.faults += 1;
        if self.faults <= SAID {
            println!("meetings: {world}, session {}: {said}", self.sessions);
        }
    }
}

/// A cut at every byte of each direction of a meeting in which so many were given.
fn every_cut(given: [usize; 2]) -> impl Iterator<Item = Cut> {
    let to_called = (0..given[0]).map(|to_called| Cut { to_called, ..WHOLE });
    let to_caller = (0..given[1]).map(|to_caller| Cut { to_caller, ..WHOLE });
    to_called.chain(to_caller)
}

/// Every cut of the first meeting, after each every cut of the second, and then a
/// whole one; who calls in each is drawn once.
fn every_pair(random: &mut Random, small: &Small, carrying: Carrying, tally: &mut Tally) {
    let calls = [random.once_in(2), random.once_in(2), random.once_in(2)];
    let meeting =
        |turn: usize, cut| Meeting { first_calls: calls[turn], rooms: [small.room; 2], cut };
    let all = &mut || ALL;
    let start = Series::new(&small.nodes, carrying);
    let whole = tally.note(small.said, start.clone().meet(meeting(0, WHOLE), all));
    for first in every_cut(whole.map_or([0; 2], |went| went.given)) {
        let mut once = start.clone();
        if tally.note(small.said, once.meet(meeting(0, first), all)).is_none() {
            continue;
        }
        let whole = tally.note(small.said, once.clone().meet(meeting(1, WHOLE), all));
        for second in every_cut(whole.map_or([0; 2], |went| went.given)) {
            let mut twice = once.clone();
            if tally.note(small.said, twice.meet(meeting(1, second), all)).is_some() {
                let went = twice.drain(calls[2], all);
                tally.end(small.said, &twice, went);
            }
        }
    }
}

/// Room enough, or short at times.
fn a_room(random: &mut Random, other: &Node) -> Room {
    match random.below(4) {
        0 => Room { places: random.within(0, 4), bytes: random.within(0, 500) },
        1 => Room { places: MESSAGES_MAX, bytes: random.within(0, 1_500) },
        _ => other.room_for_all(),
    }
}

fn a_cut(random: &mut Random) -> Cut {
    let (one, other) = (random.pick(&EARLY), random.pick(&EARLY));
    match random.below(3) {
        0 => Cut { to_called: random.below(one), ..WHOLE },
        1 => Cut { to_caller: random.below(one), ..WHOLE },
        _ => Cut { to_called: random.below(one), to_caller: random.below(other) },
    }
}

/// Meetings in random rooms and portions, cut anywhere, and then a whole one.
fn random_series(random: &mut Random, carrying: Carrying, tally: &mut Tally) {
    let world = "a random series";
    let start = worlds::random(random);
    let mut series = Series::new(&start, carrying);
    let most = random.pick(&[1, 20, 300, ALL]);
    let mut sizes = random.clone();
    let mut portion = || sizes.within(1, most);
    for _ in 0..random.within(1, SERIES) {
        let rooms = [a_room(random, &series.now[1]), a_room(random, &series.now[0])];
        let meeting = Meeting { first_calls: random.once_in(2), rooms, cut: a_cut(random) };
        if tally.note(world, series.meet(meeting, &mut portion)).is_none() {
            return;
        }
    }
    let went = series.drain(random.once_in(2), &mut portion);
    tally.end(world, &series, went);
}

fn main() -> ExitCode {
    let Options { cuts, seed, carrying } = match options(std::env::args().skip(1)) {
        Some(options) => options,
        None => {
            eprintln!("{USAGE}");
            return ExitCode::from(2);
        }
    };
    fuzz::watch::start();
    println!("meetings: --seed {seed:#x}");
    let mut random = Random::named(seed, "meetings");
    let mut tally = Tally::default();
    let mut reasons = Reasons::default();
    for small in worlds::small() {
        if let Err(said) = reasons::run(&small, &mut reasons) {
            tally.fault(small.said, &said);
        }
    }
    println!("meetings: {reasons}");
    for missed in reasons.never_met() {
        tally.fault("altered bytes", &format!("no line arrived at {missed}"));
    }
    while tally.cuts < cuts / RANDOM_SHARE && tally.faults < SAID {
        random_series(&mut random, carrying, &mut tally);
    }
    for small in worlds::small().iter().cycle() {
        if tally.cuts >= cuts || tally.faults >= SAID {
            break;
        }
        let before = tally.cuts;
        every_pair(&mut random, small, carrying, &mut tally);
        println!("meetings: {}: every pair, {} cuts", small.said, tally.cuts - before);
    }
    if tally.deferred == 0 || tally.unsettled == 0 {
        tally.fault("front panels", "none showed records deferred, or not settled");
    }
    let Tally { cuts, sessions, faults, farewells, overruns, .. } = tally;
    let Tally { forwarded, declined, deferred, unsettled, .. } = tally;
    println!(
        "meetings: {farewells} ended by FQ, {overruns} by a byte without room; \
         of the records at the end {forwarded} forwarded, {declined} declined; \
         {deferred} front panels showed some deferred, {unsettled} some not settled"
    );
    println!("meetings: {cuts} cuts, {sessions} sessions, {faults} faults");
    if faults == 0 {
        ExitCode::SUCCESS
    } else {
        ExitCode::FAILURE
    }
}
