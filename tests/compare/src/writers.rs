//! Writers: any place, any skip, any buffer; and piece by piece.

use crate::lent::Lent;
use crate::report::{same, same_bytes, Checked, Difference, Input};
use crate::run::Run;
use compare::random::Random;
use compare::words::{self, Fields, Room};
use second::buffer::put;
use second::field::BODY_MAX;
use second::record::Form;
use second::transfer::writer::{write_framed, write_plain};
use second::{fs, proposal, sid};

const FIXED: &str = "words_write_fixed";
const PROPOSAL: &str = "words_write_proposal";
const FS: &str = "words_write_fs";
const PLAIN: &str = "words_write_plain";
const FRAMED: &str = "words_write_framed";

/// How many bytes a call wrote.
type Written = Result<usize, Difference>;

/// A writer of the library with its fields, and the text that it should write.
struct Writer<'a> {
    function: &'static str,
    text: Vec<u8>,
    write: &'a dyn Fn(Room<'_>) -> usize,
    input: &'a dyn Fn() -> Input,
}

impl Writer<'_> {
    /// One call into a buffer of this size. Says how many bytes were written.
    fn once(&self, random: &mut Random, size: usize, place: usize, skip: usize) -> Written {
        let mut lent = Lent::new(random, size);
        let mut expected = lent.clone();
        let buffer = lent.part();
        let count = (self.write)(Room { buffer, place, skip });
        let second = put(&self.text, skip, expected.part(), place);
        let input = || {
            (self.input)().number("buffer size", size).number("place", place).number("skip", skip)
        };
        same(self.function, count, second, input)?;
        same_bytes(
            self.function,
            "buffer (from 16 bytes in front of it)",
            lent.all(),
            expected.all(),
            input,
        )?;
        Ok(count)
    }

    /// The whole text in rooms of many sizes, and nothing after it.
    fn piecewise(&self, random: &mut Random, most: usize) -> Checked {
        let mut done = 0;
        while done < self.text.len() {
            let size = random.within(1, most);
            // Mostly from the front; a place at the end gives nothing.
            let place = if random.once_in(4) { random.below(size + 1) } else { 0 };
            done += self.once(random, size, place, done)?;
        }
        self.once(random, most, 0, done).map(drop)
    }

    fn check(&self, run: &mut Run) -> Checked {
        run.tally.count(self.function);
        let random = &mut run.random;
        let length = self.text.len();
        let size = match random.below(4) {
            0 => length + random.below(20),
            1 => random.below(20),
            _ => random.below(length + 20),
        };
        let place = around(random, size);
        let skip = around(random, length);
        self.once(random, size, place, skip)?;
        let most = match random.below(3) {
            0 => length + 10,
            1 => length / 4 + 10,
            _ => length / 20 + 3,
        };
        self.piecewise(random, most)
    }
}

/// A place within so many bytes, at their end, beyond it or far beyond.
fn around(random: &mut Random, length: usize) -> usize {
    match random.below(16) {
        0..=5 => 0,
        6 => length,
        7 => length + 1,
        8 => random.pick(&[usize::MAX, usize::MAX - 1, usize::MAX / 2, 1 << 32]),
        _ => random.below(length + 3),
    }
}

fn fixed_text(which: u8) -> Vec<u8> {
    match which {
        0 => [sid::OURS, b"\r"].concat(),
        1 => b">\r".to_vec(),
        2 => proposal::write(&proposal::TurnLine::Nothing),
        3 => proposal::write(&proposal::TurnLine::Quit),
        4 => proposal::write(&proposal::TurnLine::BlockEnd),
        _ => vec![],
    }
}

fn check_fixed(run: &mut Run, which: u8) -> Checked {
    let writer = Writer {
        function: FIXED,
        text: fixed_text(which),
        write: &|room| words::write_fixed(which, room),
        input: &|| Input::new().number("which", which),
    };
    writer.check(run)
}

/// The form that the second implementation writes for a number: only 1 has
/// letters of its own.
pub fn form(number: u8) -> Form {
    match number {
        1 => Form::Message,
        2 => Form::File,
        _ => Form::Plain,
    }
}

fn check_proposal(run: &mut Run, f: &Fields<'_>) -> Checked {
    let fields = [f.from, f.at, f.to, f.bid];
    let writer = Writer {
        function: PROPOSAL,
        text: proposal::write_fields(form(f.form), f.kind, fields, f.size),
        write: &|room| words::write_proposal(room, f),
        input: &|| {
            Input::new()
                .number("form", f.form)
                .bytes("type", &[f.kind])
                .bytes("from", f.from)
                .bytes("at", f.at)
                .bytes("to", f.to)
                .bytes("BID", f.bid)
                .number("size", f.size)
        },
    };
    writer.check(run)
}

fn check_fs(run: &mut Run, signs: &[u8]) -> Checked {
    let writer = Writer {
        function: FS,
        text: fs::write_bytes(signs),
        write: &|room| words::write_fs(room, signs),
        input: &|| Input::new().bytes("signs", signs),
    };
    writer.check(run)
}

fn check_transfer(run: &mut Run, function: &'static str, heading: &[u8], body: &[u8]) -> Checked {
    let plain = function == PLAIN;
    let writer = Writer {
        function,
        text: if plain { write_plain(heading, body) } else { write_framed(heading, body) },
        write: &|room| match plain {
            true => words::write_plain(room, heading, body),
            false => words::write_framed(room, heading, body),
        },
        input: &|| Input::new().bytes("heading", heading).bytes("body", body),
    };
    writer.check(run)
}

/// Every place, skip and size for the fixed lines; every form, type and power
/// of ten of a proposal; every length of a field; bodies around each limit.
pub fn limits(run: &mut Run) -> Checked {
    every_fixed(run)?;
    for number in 0..=255 {
        check_fixed(run, number)?;
        check_fs(run, &[number])?;
    }
    every_proposal(run)?;
    for length in 0..=300 {
        let long = vec![b'A'; length];
        check_fs(run, &long)?;
        check_transfer(run, PLAIN, &long, b"AB")?;
        check_transfer(run, FRAMED, &long, b"AB")?;
    }
    body_lengths(run)
}

fn every_fixed(run: &mut Run) -> Checked {
    for which in [0, 1, 2, 3, 4, 5, 255] {
        let writer = Writer {
            function: FIXED,
            text: fixed_text(which),
            write: &|room| words::write_fixed(which, room),
            input: &|| Input::new().number("which", which),
        };
        for size in 0..=15 {
            for place in (0..=size + 1).chain([usize::MAX]) {
                for skip in (0..=15).chain([usize::MAX]) {
                    run.tally.count(FIXED);
                    writer.once(&mut run.random, size, place, skip)?;
                }
            }
        }
    }
    Ok(())
}

fn every_proposal(run: &mut Run) -> Checked {
    let usual = Fields {
        form: 0,
        kind: b'P',
        from: b"F6FBB",
        at: b"FC1GHV",
        to: b"FC1MVP",
        bid: b"1_F6FBB",
        size: 1345,
    };
    for number in 0..=255 {
        check_proposal(run, &Fields { form: number, ..usual })?;
        check_proposal(run, &Fields { kind: number, ..usual })?;
    }
    for power in 0..10 {
        let ten = 10_u32.pow(power);
        for size in [ten - 1, ten, ten + 1, u32::MAX - ten, u32::MAX] {
            check_proposal(run, &Fields { size, ..usual })?;
        }
    }
    for length in 0..=300 {
        let long = &vec![b'A'; length][..];
        check_proposal(run, &Fields { from: long, ..usual })?;
        check_proposal(run, &Fields { at: long, ..usual })?;
        check_proposal(run, &Fields { to: long, ..usual })?;
        check_proposal(run, &Fields { bid: long, ..usual })?;
    }
    Ok(())
}

/// Two bodies of each length around a block's and a body's limit.
fn body_lengths(run: &mut Run) -> Checked {
    let short = (0..=20).chain(250..=270).chain(505..=520).chain(760..=775);
    let long = [65_279, 65_280, 65_281, 65_534, BODY_MAX, BODY_MAX + 1, 70_000];
    for length in short.chain(long) {
        for _ in 0..2 {
            let body = inputs::body_of(&mut run.random, length, false);
            check_transfer(run, PLAIN, b"Title", &body)?;
            check_transfer(run, FRAMED, b"name", &body)?;
        }
    }
    Ok(())
}

pub fn random_fixed(run: &mut Run) -> Checked {
    let which = match run.random.below(8) {
        0 => run.random.byte(),
        _ => run.random.below(6) as u8,
    };
    check_fixed(run, which)
}

/// Valid fields, or any bytes: the writer judges neither.
fn any_field(random: &mut Random, valid: fn(&mut Random) -> Vec<u8>) -> Vec<u8> {
    let field = valid(random);
    inputs::damaged(random, field)
}

pub fn random_proposals(run: &mut Run) -> Checked {
    let random = &mut run.random;
    let from = any_field(random, inputs::call);
    let at = any_field(random, inputs::at);
    let to = any_field(random, inputs::call);
    let bid = any_field(random, inputs::bid);
    let fields = Fields {
        form: random.pick(&[0, 1, 2, 3, 255]),
        kind: if random.once_in(4) { random.byte() } else { random.pick(b"PB") },
        from: &from,
        at: &at,
        to: &to,
        bid: &bid,
        size: random.number() as u32 >> random.below(32),
    };
    check_proposal(run, &fields)
}

pub fn random_fs(run: &mut Run) -> Checked {
    let random = &mut run.random;
    let length = inputs::length(random, 5);
    let signs = match random.below(3) {
        0 => inputs::bytes(random, length),
        _ => (0..length).map(|_| random.pick(b"+-=")).collect(),
    };
    check_fs(run, &signs)
}

pub fn random_plain(run: &mut Run) -> Checked {
    random_transfer(run, PLAIN)
}

pub fn random_framed(run: &mut Run) -> Checked {
    random_transfer(run, FRAMED)
}

fn random_transfer(run: &mut Run, function: &'static str) -> Checked {
    let random = &mut run.random;
    let heading = match random.below(16) {
        0 => {
            let length = random.below(600);
            inputs::bytes(random, length)
        }
        _ => any_field(random, inputs::heading),
    };
    let body = inputs::body(random, false);
    check_transfer(run, function, &heading, &body)
}
