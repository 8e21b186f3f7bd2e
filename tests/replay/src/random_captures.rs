//! Random and damaged captures.

use crate::cases::Case;
use inputs::random::Random;

/// Bytes, a session that could be one, or a real mailbox; most of them damaged.
pub fn capture(random: &mut Random, real: &[Case]) -> Vec<u8> {
    let mut bytes = match random.below(8) {
        0 => {
            let length = random.below(600);
            inputs::bytes(random, length)
        }
        1 => real[random.below(real.len())].1.clone(),
        _ => session(random),
    };
    if random.once_in(8) {
        bytes.truncate(random.below(bytes.len() + 1));
    }
    inputs::damaged(random, bytes)
}

/// A SID and some turns.
fn session(random: &mut Random) -> Vec<u8> {
    let framed = random.once_in(2);
    let mut bytes = match random.below(10) {
        0 => inputs::sid(random),
        _ if framed => random.pick(&[&b"[TST-1-BF$]"[..], b"[TST-1-B1F$]"]).to_vec(),
        _ => b"[TST-1-F$]".to_vec(),
    };
    end_line(random, &mut bytes);
    for _ in 0..random.within(1, 4) {
        let line = match random.below(24) {
            0 => inputs::line(random),
            1 => inputs::short_turn_line(random),
            2 | 3 => b"; 73".to_vec(),
            _ => {
                block(random, framed, &mut bytes);
                continue;
            }
        };
        bytes.extend(line);
        end_line(random, &mut bytes);
    }
    bytes.extend(random.pick(&[&b"FQ"[..], b"FQ", b"fq", b"FF"]));
    end_line(random, &mut bytes);
    bytes
}

/// Proposals, `F>`, and a transfer for each: with new BIDs all are accepted.
fn block(random: &mut Random, framed: bool, bytes: &mut Vec<u8>) {
    let count = random.within(1, 5);
    let mut lines = Vec::new();
    for _ in 0..count {
        let mut fields = inputs::proposal_fields(random);
        // Most of them fit the mode and the room that is left, so that transfers follow.
        if !random.once_in(40) {
            fields[6] = random.below(5_000).to_string().into_bytes();
            fields[0] = if framed && random.once_in(2) { b"FA".to_vec() } else { b"FB".to_vec() };
        }
        let line = inputs::spaced(random, &fields);
        lines.extend(line);
        lines.push(b'\r');
    }
    let sum = lines.iter().fold(0u8, |sum, byte| sum.wrapping_add(*byte)).wrapping_neg();
    bytes.extend(lines);
    bytes.extend(b"F>");
    if random.once_in(2) {
        bytes.extend(format!(" {sum:02X}").bytes());
    }
    end_line(random, bytes);
    for _ in 0..count {
        let heading = inputs::heading(random);
        // Some fill the store of 32 KiB.
        let body = match random.once_in(40) {
            true => inputs::body_of(random, 17_000, !framed),
            false => inputs::body(random, !framed),
        };
        let transfer = match framed {
            true => inputs::framed(random, &heading, &body),
            false => inputs::plain(random, &heading, &body),
        };
        bytes.extend(transfer);
    }
}

fn end_line(random: &mut Random, bytes: &mut Vec<u8>) {
    bytes.push(b'\r');
    if random.once_in(8) {
        bytes.push(b'\n');
    }
}
