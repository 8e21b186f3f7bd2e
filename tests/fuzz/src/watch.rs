//! A watch over the library: a call that does not end ends the run.

use std::sync::atomic::{AtomicU64, Ordering::Relaxed};
use std::thread;
use std::time::Duration;

/// No call of a session takes so long, on however busy a machine.
const PATIENCE: Duration = Duration::from_secs(60);

static CALLS: AtomicU64 = AtomicU64::new(0);
static SESSION: AtomicU64 = AtomicU64::new(0);

/// Notes that a session begins; prints its number if asked, so that a crash
/// shows where it came.
pub fn session(number: u64, verbose: bool) {
    SESSION.store(number, Relaxed);
    if verbose {
        println!("session {number}");
    }
}

/// Notes that a call begins.
pub fn call() {
    CALLS.fetch_add(1, Relaxed);
}

/// Watches until the program ends.
pub fn start() {
    thread::spawn(|| loop {
        let before = CALLS.load(Relaxed);
        thread::sleep(PATIENCE);
        if CALLS.load(Relaxed) == before {
            let session = SESSION.load(Relaxed);
            println!("session {session}: no answer within {PATIENCE:?}");
            std::process::exit(1);
        }
    });
}
