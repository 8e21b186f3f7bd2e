//! The checksum of data, eight bytes a round as the library sums it, beside the
//! sum one byte at a time.

use crate::body;
use crate::timing::{self, ROUNDS};
use compare::words;
use std::time::{Duration, Instant};

/// So many checksums are timed together.
const BATCH: u32 = 200;
/// None, around a round, a short block, a whole one, sixteen of them, the
/// longest body.
const LENGTHS: [usize; 9] = [0, 1, 7, 8, 9, 250, 256, 4_096, 65_535];

/// One line of the table.
pub struct Row {
    pub name: String,
    length: usize,
}

pub fn rows() -> Vec<Row> {
    LENGTHS.map(|length| Row { name: format!("checksum of {length} bytes"), length }).into()
}

type Checksum = fn(&[u8]) -> u8;

/// The time of so many checksums of the data.
fn play_side(checksum: Checksum, data: &[u8], times: u32) -> Duration {
    let start = Instant::now();
    let total = (0..times).map(|_| usize::from(checksum(data))).sum();
    let time = start.elapsed();
    timing::used(total);
    time
}

/// Plays a row so many times, for a tool that counts what is done.
pub fn play(row: &Row, side: &str, times: usize) -> bool {
    let checksum = match side {
        "rounds" => words::checksum,
        "each" => words::checksum_each,
        _ => return false,
    };
    play_side(checksum, &body()[..row.length], times as u32);
    true
}

pub fn run() {
    println!("Checksums: nanoseconds of one, the best batch of {BATCH} in {ROUNDS} rounds:");
    println!("eight bytes a round, and each byte alone.");
    println!("{:<38} {:>9} {:>9} {:>9}", "", "rounds", "each", "ratio");
    for row in rows() {
        let data = &body()[..row.length];
        assert_eq!(words::checksum(data), words::checksum_each(data), "{}", row.name);
        let best = timing::in_turns([&mut || play_side(words::checksum, data, BATCH), &mut || {
            play_side(words::checksum_each, data, BATCH)
        }]);
        let [rounds, each] = best.map(|time| time / f64::from(BATCH) * 1e9);
        let ratio = each / rounds;
        println!("{:<38} {rounds:>9.1} {each:>9.1} {ratio:>9.2}", row.name);
    }
}
