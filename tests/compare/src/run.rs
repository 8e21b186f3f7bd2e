//! One run of the comparison: its random numbers, its size, its counts.

use crate::report::{Checked, Tally};
use compare::random::Random;

/// What a check works with.
pub struct Run {
    pub random: Random,
    /// Random inputs for each function.
    pub count: u64,
    pub tally: Tally,
}

impl Run {
    /// One check `count` times.
    pub fn repeat(&mut self, check: fn(&mut Run) -> Checked) -> Checked {
        (0..self.count).try_for_each(|_| check(self))
    }
}
