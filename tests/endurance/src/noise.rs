//! Random traffic on both implementations: noise from the first byte or after a
//! valid opening, and the fuzzer's sessions, half and half.

use fuzz::pair::Pair;
use fuzz::report::Checked;
use fuzz::tally::Tally;
use fuzz::{sessions, tables};
use inputs::random::Random;
use second::log::Side;
use second::memory::PARTNERS;
use second::refusal;
use second::session::CALLED;

#[derive(Debug, Default)]
pub struct Noise {
    pub sessions: u64,
    pub bytes: usize,
}

/// Runs until so many bytes were consumed and given in all. Gives the noise and
/// the tally of the sessions.
pub fn run(random: &mut Random, bytes: usize) -> Checked<(Noise, Tally)> {
    let mut noise = Noise::default();
    while noise.bytes < bytes / 2 {
        session(random, &mut noise)?;
    }
    let mut tally = Tally::default();
    while noise.bytes + tally.bytes() < bytes {
        sessions::run(random, &mut tally)?;
    }
    Ok((noise, tally))
}

/// One session on which noise comes in. What we say is taken at once.
fn session(random: &mut Random, noise: &mut Noise) -> Checked {
    let host = tables::buffers(random);
    let mut pair = Pair::new(random, &host);
    let role = random.below(2) as u8;
    if pair.open(role, random.below(PARTNERS) as u8)?.answer != refusal::NONE {
        return Ok(());
    }
    let openings: &[&[u8]] = match role {
        CALLED => &[b"", b"[A-F]\r", b"[A-BF$]\r", b"[A-F]\rFB P A B C 1_NOISE 60000\rF>\r"],
        _ => &[b"", b"[A-F]\r>\r", b"[A-BF$]\r>\r"],
    };
    let mut bytes = random.pick(openings).to_vec();
    loop {
        while pair.give(random, (10_000, 0), None)?.count > 0 {}
        if pair.receive(&bytes, None)?.answer != refusal::NONE {
            break;
        }
        bytes.resize(random.within(1, 300), 0);
        match random.once_in(2) {
            true => random.fill(&mut bytes),
            false => bytes = inputs::bytes(random, bytes.len()),
        }
    }
    pair.demand_3()?;
    let trace = pair.second().expect("an accepted open").trace();
    noise.bytes += trace.bytes(Side::Us).len() + trace.bytes(Side::Partner).len();
    noise.sessions += 1;
    Ok(())
}
