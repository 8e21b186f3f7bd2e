//! The sessions in which one byte is received or given: each with nothing in
//! table, known BIDs and inbox, or as little as the state needs, and with as much
//! as there may be.

use crate::end::{End, Library};
use crate::{body, transfer, Mode};
use second::field::HEADING_MAX;
use second::host::{Buffers, Letter};
use second::memory::{KNOWN_MAX, MESSAGES_MAX, RECORDS_MAX, SIZE_MAX};
use second::places;
use second::session::Reply;

/// A body of the partner.
const LITTLE: &[u8] = b"a body";
const TITLE: &[u8] = &[b't'; HEADING_MAX];

fn nothing() -> Buffers {
    Buffers::new(0, 0)
}

/// The called station after our prompt was taken.
fn called(host: Buffers) -> Library {
    let mut end = Library::open(host);
    end.say();
    end
}

/// And after the partner's SID.
fn opened(host: Buffers, mode: Mode) -> Library {
    let mut end = called(host);
    end.hear(sid(mode));
    end
}

fn sid(mode: Mode) -> &'static [u8] {
    match mode {
        Mode::Plain => b"[TST-1-F$]\r",
        Mode::Framed => b"[TST-1-BF$]\r",
    }
}

pub fn sid_empty() -> Library {
    called(nothing())
}

pub fn sid_full() -> Library {
    called(full_host(Mode::Framed))
}

/// The calling station after the partner's SID.
fn greeted(host: Buffers) -> Library {
    let mut end = Library::call(host);
    end.hear(sid(Mode::Framed));
    end
}

pub fn prompt_empty() -> Library {
    greeted(nothing())
}

pub fn prompt_full() -> Library {
    greeted(full_host(Mode::Framed))
}

pub fn line_empty() -> Library {
    opened(nothing(), Mode::Framed)
}

pub fn line_full() -> Library {
    kept(MESSAGES_MAX, Mode::Framed)
}

pub fn fq_waits() -> Library {
    let mut end = line_empty();
    end.hear(b"FF\r");
    end
}

/// One record is proposed.
pub fn fs_empty() -> Library {
    let mut host = nothing();
    host.add(&Letter::new(Mode::Framed, &proposal(Mode::Framed, 'O', 0, 1), TITLE, LITTLE));
    let mut end = opened(host, Mode::Framed);
    end.hear(b"FF\r");
    end.say();
    end
}

pub fn fs_full() -> Library {
    let mut end = block_waits();
    end.say();
    end
}

/// Two places: a message is begun in the first of them, or is in it but for a byte.
fn two_places(mode: Mode) -> Library {
    opened(Buffers::new(2, 2 * LITTLE.len()), mode)
}

pub fn data_empty(mode: Mode) -> Library {
    let mut end = two_places(mode);
    begin_two(&mut end, mode, BODY_LEFT);
    end
}

pub fn data_full(mode: Mode) -> Library {
    let mut end = kept(MESSAGES_MAX - 2, mode);
    begin_two(&mut end, mode, BODY_LEFT);
    end
}

pub fn keeping_empty() -> Library {
    let mut end = two_places(Mode::Framed);
    begin_two(&mut end, Mode::Framed, 1);
    end
}

pub fn keeping_full() -> Library {
    let mut end = kept(MESSAGES_MAX - 2, Mode::Framed);
    begin_two(&mut end, Mode::Framed, 1);
    end
}

/// The byte that makes a message of [`begin_two`] whole.
pub fn last_byte() -> u8 {
    *transfer(Mode::Framed, TITLE, LITTLE).last().expect("a checksum")
}

/// So many bytes before its end a transfer is inside its body.
const BODY_LEFT: usize = 4;

/// Two messages are proposed, and the first comes up to so many bytes.
fn begin_two(end: &mut Library, mode: Mode, left: usize) {
    block(end, mode, 62..64, b"FS ++\r");
    let text = transfer(mode, TITLE, LITTLE);
    end.hear(&text[..text.len() - left]);
}

/// A session that was refused, and so is over.
fn refused(mut end: Library) -> Library {
    assert_eq!(end.receive(b"x\r"), Reply { answer: 5, place: 0, count: 2 });
    end
}

pub fn over_empty() -> Library {
    refused(line_empty())
}

pub fn over_full() -> Library {
    refused(line_full())
}

/// Memory that fails the form test at its last item: more is given than waits.
fn failing(mut end: Library) -> Library {
    end.buffers.session[places::POS + 7] = 1;
    end
}

pub fn failing_empty() -> Library {
    failing(fq_waits())
}

pub fn failing_full() -> Library {
    failing(transfers_wait(LeftOf::All))
}

/// Five proposals, and all of `F>` but its CR.
fn five_proposed(mut end: Library) -> Library {
    for number in 64..69 {
        end.hear(&proposal(Mode::Framed, 'T', number, LITTLE.len()));
        end.hear(b"\r");
    }
    end.hear(b"F>");
    end
}

pub fn five_empty() -> Library {
    five_proposed(line_empty())
}

pub fn five_full() -> Library {
    five_proposed(line_full())
}

/// A proposal without CR, its fields as long as they may be.
fn proposal(mode: Mode, who: char, number: usize, size: usize) -> Vec<u8> {
    let letter = if mode == Mode::Plain { 'B' } else { 'A' };
    let at = "FC1GHV.FFPC.FRA.EU.WORLD.EARTH.SUN.GAL";
    format!("F{letter} B {who}6FBB0 {at} {who}LLALL {number:05}_{who}6FBB0 {size}").into_bytes()
}

/// As many records, known BIDs and places as there may be, the records with the
/// longest title and body. Announced sizes make blocks of five and two of two
/// records, so that after 13 turns of ours five are left.
fn full_host(mode: Mode) -> Buffers {
    let mut host = Buffers::new(MESSAGES_MAX, MESSAGES_MAX * LITTLE.len());
    let body = body();
    for place in 0..RECORDS_MAX {
        let size = if place == 56 || place == 58 { SIZE_MAX as usize } else { 1 };
        host.add(&Letter::new(mode, &proposal(mode, 'O', place, size), TITLE, &body));
    }
    for place in 0..KNOWN_MAX {
        host.know(format!("{place:05}_KNOWN0").as_bytes());
    }
    host
}

/// The partner proposes these messages, and we answer with so many signs.
fn block(end: &mut Library, mode: Mode, numbers: std::ops::Range<usize>, answer: &[u8]) {
    for number in numbers {
        end.hear(&proposal(mode, 'T', number, LITTLE.len()));
        end.hear(b"\r");
    }
    end.hear(b"F>\r");
    assert!(end.say().starts_with(answer));
}

/// We propose; the partner defers it all.
fn deferred(end: &mut Library) {
    let said = end.say();
    let records = said.iter().filter(|&&byte| byte == b'\r').count() - 1;
    end.hear(b"FS ");
    end.hear(&b"====="[..records]);
    end.hear(b"\r");
}

/// Messages kept up to a count, and the partner's turn awaited.
fn kept(count: usize, mode: Mode) -> Library {
    let mut end = opened(full_host(mode), mode);
    let text = transfer(mode, TITLE, LITTLE);
    for first in (0..count).step_by(5) {
        let numbers = first..count.min(first + 5);
        let text = text.repeat(numbers.len());
        block(&mut end, mode, numbers, b"FS +");
        end.hear(&text);
        deferred(&mut end);
    }
    end
}

/// No place is free for what the partner proposes: our FS line and block wait.
pub fn block_waits() -> Library {
    let mut end = line_full();
    end.hear(&proposal(Mode::Framed, 'T', 64, 1));
    end.hear(b"\rF>\r");
    end
}

/// What is left of our five transfers to be given.
pub enum LeftOf {
    All,
    Half,
    Checksum,
}

pub fn transfers_wait(left: LeftOf) -> Library {
    let mut end = block_waits();
    assert_eq!(end.say().iter().filter(|&&byte| byte == b'\r').count(), 7);
    end.hear(b"FS +++++\r");
    let one = transfer(Mode::Framed, TITLE, &body()).len();
    let given = match left {
        LeftOf::All => 0,
        LeftOf::Half => 5 * one - one / 2,
        LeftOf::Checksum => 5 * one - 1,
    };
    assert_eq!(end.give(&mut vec![0; given]), Reply::ok(given));
    end
}
