//! Units that the rules forbid where they come, or only just allow.

use inputs::random::Random;
use inputs::{damage, fs_line, line, proposal_fields, sid, spaced};

/// Damages a unit in one way or more, or puts another in its place.
pub fn unit(random: &mut Random, mut right: Vec<u8>) -> Vec<u8> {
    match random.below(8) {
        0..=3 => {
            for _ in 0..random.pick(&[1, 1, 2, 4]) {
                damage(random, &mut right);
            }
            right
        }
        // The checksum of a framed transfer, the CR of anything else.
        4 => {
            if let Some(last) = right.last_mut() {
                *last = last.wrapping_add(random.pick(&[1, 0xFF, 0x80]));
            }
            right
        }
        5 => long_line(random, &right),
        _ => [other(random), b"\r".to_vec()].concat(),
    }
}

/// The unit's first line with spaces up to about as long as a line may be.
fn long_line(random: &mut Random, right: &[u8]) -> Vec<u8> {
    let mut lines = right.splitn(2, |&byte| byte == b'\r');
    let mut line = lines.next().unwrap_or_default().to_vec();
    line.resize(line.len().max(random.within(254, 258)), b' ');
    line.push(b'\r');
    line.extend(lines.next().unwrap_or_default());
    line
}

/// Another unit, without its last CR.
fn other(random: &mut Random) -> Vec<u8> {
    match random.below(13) {
        0 => b"F>".to_vec(),
        12 => b"F> 00".to_vec(),
        1 => b"FF".to_vec(),
        2 => b"FQ".to_vec(),
        3 => {
            let signs = random.below(7);
            fs_line(random, signs)
        }
        4 => sid(random),
        5 => Vec::new(),
        6 => b"\n\n".to_vec(),
        7 | 8 => many_proposals(random),
        9 => b"FF\rFF".to_vec(),
        10 => b"FS ".to_vec(),
        _ => line(random),
    }
}

/// Five or six proposals in a mode that may be the wrong one, and a line that
/// may end them.
fn many_proposals(random: &mut Random) -> Vec<u8> {
    let letters = random.pick(&[&b"FA"[..], b"FB"]);
    let mut out = Vec::new();
    for _ in 0..random.within(5, 6) {
        let mut fields = proposal_fields(random);
        fields[0] = letters.to_vec();
        out.extend(spaced(random, &fields));
        out.push(b'\r');
    }
    out.extend(random.pick(&[&b"F>"[..], b"F> 5A", b"FF", b"FB P A", b"FQ", b"FA P A B C D 1"]));
    out
}
