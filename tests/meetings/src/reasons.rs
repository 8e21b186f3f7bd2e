//! Request Q-1 between two of our nodes: a byte is altered on the way, one end refuses
//! and says why, and that line arrives wherever the other end is. It settles nothing
//! there, and no answer goes back and forth.

use crate::end::{Awaited, End};
use crate::node::{Carrying, Node};
use crate::worlds::Small;
use second::record::Form;
use second::refusal::reason_after;
use std::fmt::{self, Display};

/// Where the B of a SID stands, `[NOD-1-B`: with another letter there the partner has no B.
const LETTER_B: usize = 7;
/// What a byte is altered by: a letter to another, a letter to the other case, and more.
const ALTERED: [u8; 4] = [0x01, 0x20, 0x0A, 0xFF];
/// More than all that waits at once.
const ALL: usize = 70_000;
/// No meeting of a small world has so many bytes one way.
const ENDLESS: usize = 10_000;

/// A byte that the link alters: which one, of the way to the called end or to the caller.
#[derive(Clone, Copy, Debug)]
struct Alteration {
    to_called: bool,
    at: usize,
    by: u8,
}

/// Where the lines arrived, by `Awaited`, and meetings without one.
#[derive(Default)]
pub struct Reasons {
    arrived: [u64; Awaited::ALL.len()],
    none: u64,
}

impl Reasons {
    /// Where between two of our nodes no line ever arrived, though it can.
    pub fn never_met(&self) -> Vec<String> {
        let all = Awaited::ALL.iter().zip(self.arrived);
        // The called end hears nothing, so refuses nothing, before the prompt is there; and
        // who sends a transfer hears nothing before its end but what gets 11.
        let can = |awaited| !matches!(awaited, Awaited::Prompt | Awaited::Body | Awaited::Block);
        let missed = all.filter(|(awaited, times)| *times == 0 && can(**awaited));
        missed.map(|(awaited, _)| format!("{awaited:?}")).collect()
    }
}

impl Display for Reasons {
    fn fmt(&self, f: &mut fmt::Formatter<'_>) -> fmt::Result {
        let all = Awaited::ALL.iter().zip(self.arrived);
        let said: Vec<_> = all.map(|(awaited, times)| format!("{awaited:?} {times}")).collect();
        write!(f, "lines that say why arrived at {}; none came {}", said.join(", "), self.none)
    }
}

/// Every byte of a meeting altered in turn, framed and plain; what is wrong first.
pub fn run(small: &Small, reasons: &mut Reasons) -> Result<(), String> {
    let plain = small.nodes.clone().map(without_packing);
    for (nodes, start) in [(&small.nodes, vec![]), (&plain, vec![true, false])] {
        let start: Vec<_> = start
            .into_iter()
            .map(|to_called| Alteration { to_called, at: LETTER_B, by: 1 })
            .collect();
        let given = Meeting::new(nodes, small, ALL)?.run(&start, reasons)?;
        for (to_called, given) in [(true, given[0]), (false, given[1])] {
            for (at, by) in (0..given).flat_map(|at| ALTERED.map(|by| (at, by))) {
                let altered = [&start[..], &[Alteration { to_called, at, by }]].concat();
                for portion in [1, ALL] {
                    let went = Meeting::new(nodes, small, portion)?.run(&altered, reasons);
                    went.map_err(|said| format!("altered {altered:?}: {said}"))?;
                }
            }
        }
    }
    Ok(())
}

/// The same node with plain texts only.
fn without_packing(mut node: Node) -> Node {
    for letter in &mut node.letters {
        letter.envelope.form = Form::Plain;
    }
    node
}

/// The caller and the called end.
struct Meeting {
    ends: [End; 2],
    /// So many bytes are given at once.
    portion: usize,
    /// At each end, how it was when the other's line came.
    heard: [Option<Heard>; 2],
}

struct Heard {
    awaited: Awaited,
    amid: bool,
    settled: Vec<u8>,
}

impl Meeting {
    fn new(nodes: &[Node; 2], small: &Small, portion: usize) -> Result<Meeting, String> {
        let open = |at: usize, caller| End::open(&nodes[at], small.room, caller, Carrying::Whole);
        Ok(Meeting { ends: [open(0, true)?, open(1, false)?], portion, heard: [None, None] })
    }

    /// Runs it byte by byte; what each end gave.
    fn run(mut self, altered: &[Alteration], reasons: &mut Reasons) -> Result<[usize; 2], String> {
        loop {
            let there = self.carry(0, altered);
            let back = self.carry(1, altered);
            if !there && !back {
                break;
            }
            if self.ends.iter().any(|end| end.given.len() > ENDLESS) {
                return Err("the meeting doesn't end".into());
            }
        }
        for from in 0..2 {
            self.check(from)?;
        }
        match self.heard.iter().flatten().next() {
            Some(heard) => reasons.arrived[heard.awaited as usize] += 1,
            None => reasons.none += 1,
        }
        Ok([self.ends[0].given.len(), self.ends[1].given.len()])
    }

    /// All that an end gives, and one byte of it that arrives. True where one has moved.
    fn carry(&mut self, from: usize, altered: &[Alteration]) -> bool {
        let (first, second) = self.ends.split_at_mut(1);
        let (from_end, to) = match from {
            0 => (&mut first[0], &mut second[0]),
            _ => (&mut second[0], &mut first[0]),
        };
        let given = from_end.give(self.portion);
        let at = to.taken;
        let mut byte = match from_end.given.get(at) {
            Some(&byte) => byte,
            None => return given > 0,
        };
        let ours = altered.iter().filter(|a| a.to_called == (from == 0));
        ours.clone().filter(|a| a.at == at).for_each(|alteration| byte ^= alteration.by);
        if from_end.refused_at == Some(at) && to.is_live() {
            // Nor is it a line of its own where a byte of it is altered.
            let amid = to.is_amid_a_line() || ours.clone().any(|alteration| alteration.at >= at);
            let awaited = to.awaited();
            self.heard[1 - from] = Some(Heard { awaited, amid, settled: to.settled() });
        }
        to.receive(&[byte]) > 0 || given > 0
    }

    /// What an end gave after its refusal is the line, and what it settled before the
    /// other's line came still stands.
    fn check(&self, at: usize) -> Result<(), String> {
        let end = &self.ends[at];
        let said = end.refused_at.map_or(&b""[..], |at| &end.given[at..]);
        if said != reason_after(end.refusal) {
            let said = said.escape_ascii();
            return Err(format!("after refusal {} an end said \"{said}\"", end.refusal));
        }
        let heard = match &self.heard[at] {
            Some(heard) => heard,
            None => return Ok(()),
        };
        if heard.settled != end.settled() {
            return Err("a line settled something".into());
        }
        match heard.awaited.answers(heard.amid).contains(&end.refusal) {
            true => Ok(()),
            false => Err(format!("a line at {:?} got {}", heard.awaited, end.refusal)),
        }
    }
}
