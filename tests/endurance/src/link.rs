//! A link between two stations. It delivers at each end a beginning of what the
//! other gave, unaltered, and may drop at any byte.

use crate::station::Station;
use fuzz::report::Checked;
use inputs::random::Random;
use second::refusal;
use std::collections::VecDeque;

/// How a session went.
#[derive(Clone, Copy, Debug, Default)]
pub struct Run {
    /// Bytes delivered, both directions.
    pub delivered: usize,
    /// FQ arrived whole.
    pub quit: bool,
    /// The refusal that one of the ends answered with, or 0.
    pub refusal: u8,
}

/// How many bytes go at once: exactly so many, or any number up to that.
#[derive(Clone, Copy, Debug)]
pub enum Portion {
    Of(usize),
    UpTo(usize),
}

impl Portion {
    fn draw(self, random: &mut Random) -> usize {
        match self {
            Portion::Of(count) => count,
            Portion::UpTo(most) => random.within(1, most),
        }
    }
}

/// Runs a session between the caller and the called station, after both have
/// opened. The link drops once it has delivered so many bytes.
pub fn run<S: Station>(
    random: &mut Random,
    [caller, called]: [&mut S; 2],
    portion: Portion,
    drop_after: Option<usize>,
) -> Checked<Run> {
    let mut run = Run::default();
    let mut way = [VecDeque::new(), VecDeque::new()];
    let ends = [caller, called];
    let mut over = [false; 2];
    let mut still = 0;
    // Twice without anything to give or to deliver on either way: it is over.
    for turn in (0..2).cycle() {
        let room = portion.draw(random);
        let given = ends[turn].give(random, room)?;
        still = if given.is_empty() && way[turn].is_empty() { still + 1 } else { 0 };
        if still > 2 {
            return Ok(run);
        }
        way[turn].extend(given);
        let left = drop_after.map_or(usize::MAX, |drop| drop - run.delivered);
        let count = portion.draw(random).min(way[turn].len()).min(left);
        let bytes: Vec<u8> = way[turn].drain(..count).collect();
        let reply = ends[1 - turn].receive(&bytes)?;
        run.delivered += bytes.len();
        match reply.answer {
            refusal::NONE => {}
            // No bytes, on a session that is over.
            refusal::SESSION_ENDED => over[1 - turn] = true,
            answer => run.refusal = answer,
        }
        run.quit = over == [true; 2] && run.refusal == refusal::NONE;
        if drop_after == Some(run.delivered) {
            return Ok(run);
        }
    }
    unreachable!("the turns don't end")
}
