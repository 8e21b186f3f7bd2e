//! Times of two works that take turns, so that a busy machine hits both alike.

use std::sync::atomic::{AtomicUsize, Ordering};
use std::time::{Duration, Instant};

/// Both work for so many rounds.
pub const ROUNDS: usize = 12;
/// One round runs at least so long.
const ROUND_TIME: Duration = Duration::from_millis(40);

/// Does the work and says how long it took; what it prepared isn't counted.
pub type Work<'a> = &'a mut dyn FnMut() -> Duration;

/// The best time of each in seconds: the one with the least in its way.
pub fn in_turns(mut works: [Work<'_>; 2]) -> [f64; 2] {
    let mut best = [Duration::MAX; 2];
    for _ in 0..ROUNDS {
        for (best, work) in best.iter_mut().zip(&mut works) {
            *best = round(work).min(*best);
        }
    }
    best.map(|time| time.as_secs_f64())
}

fn round(work: Work<'_>) -> Duration {
    let start = Instant::now();
    let mut best = Duration::MAX;
    while start.elapsed() < ROUND_TIME {
        best = best.min(work());
    }
    best
}

/// What all calls gave together.
static TOTAL: AtomicUsize = AtomicUsize::new(0);

/// A result that counts as used, so that no work is left out (std's own black_box came after Rust 1.63).
pub fn used(result: usize) {
    TOTAL.fetch_add(result, Ordering::Relaxed);
}
