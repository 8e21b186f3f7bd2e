//! Seeds on a command line and by the clock.

use std::time::{SystemTime, UNIX_EPOCH};

/// A number in decimal, or in hex after 0x.
pub fn number(word: &str) -> Option<u64> {
    match word.strip_prefix("0x") {
        Some(hex) => u64::from_str_radix(hex, 16).ok(),
        None => word.parse().ok(),
    }
}

/// Another seed at every run.
pub fn by_the_clock() -> u64 {
    let since = SystemTime::now().duration_since(UNIX_EPOCH);
    since.map_or(1, |time| time.as_nanos() as u64)
}
