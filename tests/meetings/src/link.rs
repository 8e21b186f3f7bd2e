//! A link: it delivers at each end a beginning of what the other gave, unaltered.

use crate::end::End;

/// How many bytes the link delivers at most to the called end and to the caller.
#[derive(Clone, Copy, Debug)]
pub struct Cut {
    pub to_called: usize,
    pub to_caller: usize,
}

/// A link that doesn't drop.
pub const WHOLE: Cut = Cut { to_called: usize::MAX, to_caller: usize::MAX };

/// No meeting has so many bytes one way: 64 letters are shorter by far.
const ENDLESS: usize = 1_000_000;

/// Runs a meeting until nothing moves any more; `portion` draws how many bytes
/// go at once. True where the link has kept bytes back.
pub fn run(
    caller: &mut End,
    called: &mut End,
    cut: Cut,
    portion: &mut dyn FnMut() -> usize,
) -> Result<bool, String> {
    while caller.given.len() < ENDLESS && called.given.len() < ENDLESS {
        let there = carry(caller, called, cut.to_called, portion);
        let back = carry(called, caller, cut.to_caller, portion);
        if !there && !back {
            let kept_back =
                |from: &End, to: &End, most: usize| to.taken >= most && from.given.len() > most;
            return Ok(kept_back(caller, called, cut.to_called)
                || kept_back(called, caller, cut.to_caller));
        }
    }
    Err("the meeting doesn't end".into())
}

/// One give, and what of it arrives. True where a byte has moved.
fn carry(from: &mut End, to: &mut End, most: usize, portion: &mut dyn FnMut() -> usize) -> bool {
    let given = from.give(portion());
    let last = from.given.len().min(most).min(to.taken.saturating_add(portion()));
    given > 0 || (last > to.taken && to.receive(&from.given[to.taken..last]) > 0)
}
