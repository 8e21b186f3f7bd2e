//! Turn lines: FF, FQ, `F>`, `F> HH` and proposals, in both modes.

use crate::report::{same, Checked, Input};
use crate::run::Run;
use compare::words;
use second::line::trimmed;
use second::proposal::{self, Proposal, TurnLine};
use second::sid::Mode;

const READ_TURN_LINE: &str = "words_read_turn_line";
const UNTRIMMED: &str = "words_read_turn_line, untrimmed";
const EXAMPLE: &[u8] = b"FB P F6FBB FC1GHV.FFPC.FRA.EU FC1MVP 24657_F6FBB 1345";

/// What the C interface gives for a line: the answer, and its eleven numbers
/// between two marks that must stay.
pub type Answer = (u8, [u64; 13]);

/// Where a field lies in the line, as start and end.
fn place(line: &[u8], field: &[u8]) -> [u64; 2] {
    let start = field.as_ptr() as usize - line.as_ptr() as usize;
    [start as u64, (start + field.len()) as u64]
}

fn numbers(line: &[u8], p: &Proposal<'_>) -> [u64; 11] {
    let fields = [p.from, p.at, p.to, p.bid].map(|field| place(line, field));
    let mut out = [0; 11];
    out[0] = p.form as u64;
    out[1] = p.kind.byte().into();
    out[2..10].copy_from_slice(&fields.concat());
    out[10] = p.size.into();
    out
}

/// A line's only number.
fn first(number: u8) -> [u64; 11] {
    let mut out = [0; 11];
    out[0] = number.into();
    out
}

fn second_answer(line: &[u8], framed: u8, mark: u64) -> Answer {
    let mode = match framed {
        0 => Mode::Plain,
        _ => Mode::Framed,
    };
    let (answer, out) = match proposal::read(line, mode) {
        Ok(TurnLine::Nothing) => (0, [0; 11]),
        Ok(TurnLine::Quit) => (1, [0; 11]),
        Ok(TurnLine::BlockEnd) => (2, [0; 11]),
        Ok(TurnLine::Proposal(p)) => (3, numbers(line, &p)),
        Ok(TurnLine::SummedEnd(checksum)) => (4, first(checksum)),
        Err(refusal) => (refusal.number(), [0; 11]),
    };
    let mut marked = [mark; 13];
    marked[1..12].copy_from_slice(&out);
    (answer, marked)
}

pub fn library_answer(line: &[u8], framed: u8, mark: u64) -> Answer {
    let mut marked = [mark; 13];
    let out = (&mut marked[1..12]).try_into().expect("eleven numbers");
    let answer = words::read_turn_line(line, framed, out);
    (answer, marked)
}

/// 01 judges no line before its spaces at the end are removed, and the interface
/// leaves that to the caller. So what an untrimmed line gets isn't decided: the
/// answer for the line as it stands will do, and that for the trimmed line too.
/// Where they differ and it is the latter, the input is counted apart.
fn check(run: &mut Run, line: &[u8], framed: u8) -> Checked {
    let mark = run.random.number();
    let library = library_answer(line, framed, mark);
    let second = second_answer(line, framed, mark);
    if library != second && library == second_answer(trimmed(line), framed, mark) {
        run.tally.count(UNTRIMMED);
        return Ok(());
    }
    run.tally.count(READ_TURN_LINE);
    let input = || Input::new().number("framed", framed).bytes("line", line);
    same(READ_TURN_LINE, library, second, input)
}

fn check_both(run: &mut Run, line: &[u8]) -> Checked {
    check(run, line, 0)?;
    check(run, line, 1)
}

/// Every line of two bytes, alone and behind `F> `, every byte at every place of an
/// example, every field at every length, every number of spaces and of fields.
pub fn limits(run: &mut Run) -> Checked {
    for first in 0..=255 {
        for second in 0..=255 {
            check_both(run, &[first, second])?;
            check_both(run, &[b'F', b'>', b' ', first, second])?;
        }
        check_both(run, &[first])?;
        check_both(run, &[b'F', b'F', first])?;
        check_both(run, &[first, b'F', b'F'])?;
        check_both(run, &[b'F', b'>', first, b'0', b'F'])?;
        check_both(run, &[b'F', first, b' ', b'0', b'F'])?;
        check_both(run, &[first, b'>', b' ', b'0', b'F'])?;
        check_both(run, &[b'F', b'>', b' ', b'0', b'F', first])?;
        check(run, EXAMPLE, first)?;
    }
    for place in 0..EXAMPLE.len() {
        for byte in 0..=255 {
            let mut line = EXAMPLE.to_vec();
            line[place] = byte;
            check_both(run, &line)?;
            line = EXAMPLE.to_vec();
            line.insert(place, byte);
            check_both(run, &line)?;
        }
        check_both(run, &EXAMPLE[..place])?;
        check_both(run, &EXAMPLE[place..])?;
    }
    field_lengths(run)?;
    at_lengths(run)?;
    spaces(run)?;
    sizes(run)
}

fn example_fields() -> Vec<Vec<u8>> {
    EXAMPLE.split(|&byte| byte == b' ').map(<[u8]>::to_vec).collect()
}

fn field_lengths(run: &mut Run) -> Checked {
    for field in 0..7 {
        for length in 0..=300 {
            let mut fields = example_fields();
            fields[field] = vec![b'1'; length];
            check_both(run, &fields.join(&b' '))?;
        }
    }
    for count in 0..=7 {
        check_both(run, &example_fields()[..count].join(&b' '))?;
    }
    for more in 1..=3 {
        let mut fields = example_fields();
        fields.resize(7 + more, b"1".to_vec());
        check_both(run, &fields.join(&b' '))?;
    }
    Ok(())
}

/// At with a first part of each length and tails around 31 and 38.
fn at_lengths(run: &mut Run) -> Checked {
    for first in 0..=8 {
        for tail in 0..=40 {
            let part = |place| if place % 7 == 6 { b'.' } else { b'A' };
            let mut fields = example_fields();
            fields[3] = vec![b'A'; first];
            fields[3].push(b'.');
            fields[3].extend((0..tail).map(part));
            check_both(run, &fields.join(&b' '))?;
        }
    }
    Ok(())
}

/// 0 to 3 spaces in each gap, in front and at the end.
fn spaces(run: &mut Run) -> Checked {
    for gap in 0..=7 {
        for count in 0..=3 {
            let mut line = Vec::new();
            for (place, field) in example_fields().iter().enumerate() {
                let usual = usize::from(place > 0);
                line.extend(vec![b' '; if place == gap { count } else { usual }]);
                line.extend(field);
            }
            if gap == 7 {
                line.extend(vec![b' '; count]);
            }
            check_both(run, &line)?;
        }
    }
    Ok(())
}

fn sizes(run: &mut Run) -> Checked {
    for power in 0..=11 {
        for number in [10_u64.pow(power) - 1, 10_u64.pow(power), 10_u64.pow(power) + 1] {
            for width in 0..=12 {
                let mut fields = example_fields();
                fields[6] = format!("{number:0width$}").into_bytes();
                check_both(run, &fields.join(&b' '))?;
            }
        }
    }
    Ok(())
}

pub fn random(run: &mut Run) -> Checked {
    let random = &mut run.random;
    let line = match random.below(8) {
        0 => inputs::short_turn_line(random),
        1 => inputs::line(random),
        _ => {
            let mut fields = inputs::proposal_fields(random);
            if random.once_in(4) {
                let place = random.below(7);
                fields[place] = inputs::damaged(random, fields[place].clone());
            }
            inputs::spaced(random, &fields)
        }
    };
    let line = inputs::damaged(random, line);
    let framed = random.pick(&[0, 0, 1, 1, 2, 255]);
    check(run, &line, framed)
}
