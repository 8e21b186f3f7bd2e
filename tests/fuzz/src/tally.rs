//! What the runs have seen, so that a reader knows how far they reach; and what
//! a run of the gate's length must have seen.

use crate::pair::{Pair, Second};
use crate::tables;
use second::field::BODY_MAX;
use second::fs::Sign;
use second::log::Side;
use second::memory::{State, MESSAGES_MAX, PARTNERS, RECORDS_MAX};
use second::proposal::BLOCK_LIMIT;
use second::refusal::{self, reason_after, ANSWERS};
use second::session::{Inside, Lent, Phase, Reply, Role, Session};
use second::sid::Mode;
use second::tally::Tally as Panel;
use std::fmt::{self, Display};

/// From so many sessions on, whatever [`Tally::never_met`] lists must have come.
pub const ENOUGH: u64 = 20_000;

/// What stands for a sign at level 1.
const MARKS: &[u8] = b"+-=YNLHREA!";
const LONGEST: [&str; 4] = ["65,534 kept", "65,535 kept", "65,534 forwarded", "65,535 forwarded"];
const KINDS: [&str; 4] = ["called plain", "called framed", "caller plain", "caller framed"];
const PLACES: [&str; 4] = ["the table", "the known list", "the inbox", "the block"];
const RIVALS: [&str; 3] = ["known before record", "first of two records", "partner before record"];
const COLUMNS: [&str; 2] = ["the partner's column", "another's"];
const PHASES: [&str; 7] = ["SID", "prompt", "turn", "FS line", "transfers", "our FQ", "nothing"];
const SHOWN: [&str; 9] = [
    "64 waiting",
    "sizes over 65,535",
    "sizes over 16,777,215",
    "proposed",
    "more than a block",
    "forwarded",
    "declined",
    "deferred",
    "not settled",
];
const STANDING: [&str; 6] = [
    "11, our block waiting",
    "11, our transfers waiting",
    "5 inside a block, after our transfers",
    "6 or 13, after our transfers",
    "5 for an FS line",
    "7",
];
const UNSETTLED: [&str; 4] =
    ["inside our block", "before the FS line", "inside our transfers", "after them"];
const TURNS: [&str; 6] = ["0", "1 to 2", "3 to 5", "6 to 10", "11 to 20", "over 20"];

#[derive(Debug, Default)]
pub struct Tally {
    pub sessions: u64,
    /// Answers of open, receive and give, by number.
    opens: [u64; 2],
    receives: [u64; ANSWERS],
    gives: [u64; 2],
    /// Opens refused for a record, and for role, sizes or known BIDs.
    places: [u64; 2],
    /// Opens with more than one fault, by [`tables::rivals`].
    rivals: [u64; 3],
    /// Opens refused for a state in the session's column alone, and in another.
    bad_states: [u64; 2],
    /// For each partner: sessions, records forwarded and declined.
    partners: [[u64; 3]; PARTNERS],
    /// Opens refused for a BID that stands earlier in another case.
    twins: u64,
    /// The partner's proposals of a BID that stands in another case, by `PLACES`.
    respelt: [u64; 4],
    consumed: usize,
    given: usize,
    kept: usize,
    /// Sessions that filled an inbox of 64 places.
    full: u64,
    /// Bodies of 65,534 and 65,535 bytes: kept, forwarded.
    longest: [u64; 4],
    /// Our records: forwarded, declined, deferred.
    records: [u64; 3],
    /// Our signs: `+`, `-`, `=`.
    signs: [u64; 3],
    /// The partner's signs taken, by `MARKS`.
    marks: [u64; MARKS.len()],
    /// Sessions with a whole turn at level 0 and 1.
    levels: [u64; 2],
    /// The partner's blocks taken: ended with `F>`, with `F> HH`.
    blocks: [u64; 2],
    /// Sessions that ended by FQ: ours, the partner's.
    quits: [u64; 2],
    /// Sessions with a whole turn: called plain, called framed, caller plain,
    /// caller framed.
    kinds: [u64; 4],
    /// What was awaited at the end, by `PHASES`.
    phases: [u64; 7],
    /// Whole turns of a session, by `TURNS`.
    turns: [u64; 6],
    /// What a dropped link cut in two: nothing, a line, a transfer, our words.
    cuts: [u64; 4],
    /// Lines that say why, by the refusal's number: given whole.
    reasons: [u64; ANSWERS],
    /// And those of which the link took nothing, and a beginning.
    unsaid: [u64; 2],
    /// Bytes that arrived while such a line waited.
    pub late: u64,
    /// Sessions whose front panel showed at the end, by `SHOWN`.
    shown: [u64; 9],
    /// Sessions that were refused while records were not settled, by `STANDING`.
    standing: [u64; 6],
    /// Links that dropped while records were not settled, by `UNSETTLED`.
    unsettled: [u64; 4],
}

impl Tally {
    pub fn opened(&mut self, reply: Reply) {
        self.opens[usize::from(reply.answer)] += 1;
        if reply.answer == refusal::BAD_MEMORY {
            self.places[usize::from(reply.place == refusal::NO_PLACE)] += 1;
        }
    }

    /// Counts what open had to choose between.
    pub fn rivals(&mut self, partner: u8, lent: &Lent<'_>) {
        for (times, came) in self.rivals.iter_mut().zip(tables::rivals(partner, lent)) {
            *times += u64::from(came);
        }
        for (times, came) in self.bad_states.iter_mut().zip(tables::bad_states(partner, lent)) {
            *times += u64::from(came);
        }
        self.twins += u64::from(tables::is_twin(lent));
    }

    /// Counts what the partner proposed in another case.
    pub fn respelt(&mut self, times: [u64; 4]) {
        self.respelt.iter_mut().zip(times).for_each(|(all, times)| *all += times);
    }

    pub fn received(&mut self, reply: Reply) {
        self.receives[usize::from(reply.answer)] += 1;
    }

    pub fn gave(&mut self, reply: Reply) {
        self.gives[usize::from(reply.answer)] += 1;
    }

    /// Bytes consumed and given in all.
    pub fn bytes(&self) -> usize {
        self.consumed + self.given
    }

    /// Counts what a session came to.
    pub fn ended(&mut self, pair: &Pair, refusal: u8) {
        let second = match pair.second() {
            Some(second) => second,
            None => return,
        };
        let session = &second.session;
        let ours = second.trace().bytes(Side::Us);
        self.consumed += second.trace().bytes(Side::Partner).len();
        self.given += ours.len();
        self.kept += session.kept();
        self.full += u64::from(session.kept() == MESSAGES_MAX);
        self.phases[phase(session.phase())] += 1;
        self.turns[bucket(session.turns())] += 1;
        for (times, more) in self.blocks.iter_mut().zip(session.blocks()) {
            *times += more as u64;
        }
        for sign in session.signs_given() {
            self.signs[place(&[Sign::Accept, Sign::Decline, Sign::Defer], sign)] += 1;
        }
        for mark in session.marks_heard() {
            self.marks[place(MARKS, mark)] += 1;
        }
        if session.is_over() && refusal == refusal::NONE {
            // Before the partner's FQ our last line was FF.
            self.quits[usize::from(!ours.ends_with(b"FQ\r"))] += 1;
        }
        if !session.is_over() {
            let all = [Inside::Nothing, Inside::Line, Inside::Transfer, Inside::OurWords];
            self.cuts[place(&all, &session.inside())] += 1;
        }
        self.count_reason(session.waiting(), refusal);
        self.count_kind(second);
        self.count_records(second);
        self.count_panel(second, refusal);
    }

    /// What the front panel showed at the end, and where it stood so.
    fn count_panel(&mut self, second: &Second, refusal: u8) {
        let Panel { waiting, sizes, sheet } = second.tally;
        let shown = [
            waiting == RECORDS_MAX,
            sizes > 0xFF_FF,
            sizes > 0xFF_FF_FF,
            sheet.proposed > 0,
            sheet.proposed > BLOCK_LIMIT,
            sheet.forwarded > 0,
            sheet.declined > 0,
            sheet.deferred > 0,
            sheet.unsettled > 0,
        ];
        for (times, shown) in self.shown.iter_mut().zip(shown) {
            *times += u64::from(shown);
        }
        if sheet.unsettled > 0 {
            let session = &second.session;
            standing(session, refusal).into_iter().for_each(|kind| self.standing[kind] += 1);
            unsettled(session).into_iter().for_each(|kind| self.unsettled[kind] += 1);
        }
    }

    /// How far we came in saying why.
    fn count_reason(&mut self, waiting: usize, refusal: u8) {
        let reason = reason_after(refusal).len();
        if reason == 0 {
            return;
        }
        match waiting {
            0 => self.reasons[usize::from(refusal)] += 1,
            left => self.unsaid[usize::from(left < reason)] += 1,
        }
    }

    /// Lines that say why, by those numbers that have one.
    fn said_why(&self) -> Vec<(String, u64)> {
        let has_one = |number: &u8| !reason_after(*number).is_empty();
        let numbers = (0..ANSWERS as u8).filter(has_one);
        numbers.map(|number| (number.to_string(), self.reasons[usize::from(number)])).collect()
    }

    /// By role and mode, once the partner's SID has chosen that.
    fn count_kind(&mut self, second: &Second) {
        let (role, mode) = (second.session.role(), second.session.mode());
        if second.session.turns() > 0 {
            let caller = usize::from(role == Role::Caller);
            self.levels[usize::from(second.session.level().number())] += 1;
            self.kinds[2 * caller + usize::from(mode == Mode::Framed)] += 1;
        }
    }

    fn count_records(&mut self, second: &Second) {
        let partner = second.session.partner();
        self.partners[partner][0] += 1;
        for (record, before) in second.memory.table.iter().zip(second.opened()) {
            let (state, before) = (record.states[partner], before.states[partner]);
            let forwarded = state != before && state == State::Forwarded;
            let declined = state != before && state == State::Declined;
            self.records[0] += u64::from(forwarded);
            self.records[1] += u64::from(declined);
            self.partners[partner][1] += u64::from(forwarded);
            self.partners[partner][2] += u64::from(declined);
            self.count_body(2, record.body.length, forwarded);
        }
        self.records[2] += second.session.deferred() as u64;
        for message in second.memory.inbox[..second.session.kept()].iter().flatten() {
            self.count_body(0, message.body.length, true);
        }
    }

    /// Counts a body about as long as one can be.
    fn count_body(&mut self, from: usize, length: usize, counts: bool) {
        if counts && length + 1 >= BODY_MAX {
            self.longest[from + length + 1 - BODY_MAX] += 1;
        }
    }

    /// All that is counted by kind: a name, and each kind with its number.
    fn groups(&self) -> Vec<(&'static str, Vec<(String, u64)>)> {
        vec![
            ("open answered", numbered(&self.opens)),
            ("receive answered", numbered(&self.receives)),
            ("give answered", numbered(&self.gives)),
            ("open refused for", named(&["a record", "what comes before"], &self.places)),
            ("open found", named(&RIVALS, &self.rivals)),
            ("open found a state over 2 in", named(&COLUMNS, &self.bad_states)),
            ("sessions with partner", numbered(&self.partners.map(|partner| partner[0]))),
            ("forwarded to partner", numbered(&self.partners.map(|partner| partner[1]))),
            ("declined by partner", numbered(&self.partners.map(|partner| partner[2]))),
            ("open found a BID", named(&["in another case"], &[self.twins])),
            ("proposed in another case: BIDs of", named(&PLACES, &self.respelt)),
            ("our records", named(&["forwarded", "declined", "deferred"], &self.records)),
            ("the longest bodies", named(&LONGEST, &self.longest)),
            ("our signs", named(&["+", "-", "="], &self.signs)),
            ("the partner's signs", marked(&self.marks)),
            ("at level", numbered(&self.levels)),
            ("the partner's blocks", named(&["bare", "with their checksum"], &self.blocks)),
            ("ended by FQ", named(&["ours", "the partner's"], &self.quits)),
            ("with a turn", named(&KINDS, &self.kinds)),
            ("awaited at the end", named(&PHASES, &self.phases)),
            ("turns in a session", named(&TURNS, &self.turns)),
            ("said why after", self.said_why()),
            ("dropped before saying why", named(&["all", "the rest"], &self.unsaid)),
            ("before we had said why", named(&["bytes came"], &[self.late])),
            ("dropped inside", named(&["nothing", "a line", "a transfer", "ours"], &self.cuts)),
            ("the front panel showed", named(&SHOWN, &self.shown)),
            ("refused with records not settled:", named(&STANDING, &self.standing)),
            ("dropped with records not settled:", named(&UNSETTLED, &self.unsettled)),
        ]
    }

    /// What a long enough run must have met and this one has not.
    pub fn never_met(&self) -> Vec<String> {
        let kept = named(&["any", "64 in a session"], &[self.kept as u64, self.full]);
        let groups = self.groups().into_iter().chain([("messages kept", kept)]);
        let missing = groups.flat_map(|(group, kinds)| {
            let none = kinds.into_iter().filter(|(_, times)| *times == 0);
            none.map(move |(kind, _)| format!("{group}: {kind}"))
        });
        missing.collect()
    }
}

/// Where in the list an item is.
fn place<T: PartialEq>(all: &[T], item: &T) -> usize {
    all.iter().position(|other| other == item).expect("one of the list")
}

fn phase(phase: &Phase) -> usize {
    match phase {
        Phase::Sid => 0,
        Phase::Prompt => 1,
        Phase::Turn { .. } => 2,
        Phase::Answer { .. } => 3,
        Phase::Transfers { .. } => 4,
        Phase::Quit => 5,
        Phase::Over => 6,
    }
}

/// How a session was refused whose records are not settled, by `STANDING`.
fn standing(session: &Session, refusal: u8) -> Option<usize> {
    let in_block = |phase: &Phase| matches!(phase, Phase::Turn { block, .. } if !block.is_empty());
    match (refusal, session.refused_in()?) {
        (refusal::BYTES_WAIT, Phase::Answer { .. }) => Some(0),
        (refusal::BYTES_WAIT, _) => Some(1),
        (refusal::LINE_NOT_ALLOWED, phase) if in_block(phase) => Some(2),
        (refusal::PROPOSAL_COUNT | refusal::WRONG_BLOCK_SUM, _) => Some(3),
        (refusal::LINE_NOT_ALLOWED, Phase::Answer { .. }) => Some(4),
        (refusal::BAD_ANSWER, _) => Some(5),
        _ => None,
    }
}

/// Where the link dropped while records were not settled, by `UNSETTLED`.
fn unsettled(session: &Session) -> Option<usize> {
    match (session.phase(), session.waiting()) {
        (Phase::Answer { .. }, 1..) => Some(0),
        (Phase::Answer { .. }, 0) => Some(1),
        (Phase::Turn { .. }, 1..) => Some(2),
        (Phase::Turn { .. }, 0) => Some(3),
        _ => None,
    }
}

fn bucket(turns: usize) -> usize {
    [0, 2, 5, 10, 20].iter().filter(|&&most| turns > most).count()
}

fn numbered(times: &[u64]) -> Vec<(String, u64)> {
    times.iter().enumerate().map(|(number, times)| (number.to_string(), *times)).collect()
}

fn marked(times: &[u64]) -> Vec<(String, u64)> {
    MARKS.iter().map(|&mark| char::from(mark).to_string()).zip(times.iter().copied()).collect()
}

fn named(names: &[&str], times: &[u64]) -> Vec<(String, u64)> {
    names.iter().map(|name| name.to_string()).zip(times.iter().copied()).collect()
}

impl Display for Tally {
    fn fmt(&self, f: &mut fmt::Formatter<'_>) -> fmt::Result {
        let Tally { sessions, consumed, given, kept, full, .. } = self;
        let calls: u64 = self.opens.iter().chain(&self.receives).chain(&self.gives).sum();
        writeln!(f, "  {sessions} sessions, {calls} calls")?;
        writeln!(f, "  {consumed} bytes received, {given} bytes given")?;
        writeln!(f, "  {kept} messages kept; 64 of them in {full} sessions")?;
        for (group, kinds) in self.groups() {
            let kinds: Vec<String> = kinds.iter().map(|(name, n)| format!("{name}: {n}")).collect();
            writeln!(f, "  {group} {}", kinds.join(", "))?;
        }
        Ok(())
    }
}
