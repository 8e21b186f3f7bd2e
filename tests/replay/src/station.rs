//! The second implementation's replay (02, Q-11): the called station with an
//! empty table, no known BIDs and partner 0.

use second::host::Buffers;
use second::memory::Memory;
use second::refusal;
use second::session::{self, Session, CALLED};

const PARTNER: u8 = 0;

/// "an inbox of 64 places and 32 KiB"
const PLACES: usize = 64;
const ROOM: usize = 32 * 1024;

/// "takes all waiting bytes after open and after each byte, and writes exactly the
/// bytes our node would send"; "After those bytes it writes a line `refusal N`"; "after
/// an end it feeds no more".
pub fn replay(capture: &[u8]) -> Vec<u8> {
    let buffers = Buffers::new(PLACES, ROOM);
    let opened = session::open(CALLED, PARTNER, &buffers.lent());
    let (mut session, mut memory) = opened.expect("nothing is lent that could be bad");
    let mut out = Vec::new();
    let mut answer = refusal::NONE;
    take(&mut session, &memory, &mut out);
    for &byte in capture {
        answer = session.receive(&mut memory, &[byte]).answer;
        take(&mut session, &memory, &mut out);
        if answer != refusal::NONE || session.is_over() {
            break;
        }
    }
    out.extend(format!("refusal {answer}\n").bytes());
    out
}

/// All that waits, some bytes at a time.
fn take(session: &mut Session, memory: &Memory, out: &mut Vec<u8>) {
    let mut buffer = [0; 7];
    loop {
        let count = session.give(memory, &mut buffer, 0).count;
        out.extend(&buffer[..count]);
        if count == 0 {
            return;
        }
    }
}
