//! Turn lines: proposals, `F>`, `F> HH`, `FF` and `FQ`.

use crate::field::{decimal, is_at, is_bid, is_call};
use crate::line::CR;
use crate::record::{Form, Kind};
use crate::refusal::Refusal;
use crate::sid::Mode;
use crate::transfer;

/// "one to five proposals"
pub const BLOCK_LIMIT: usize = 5;
/// "the announced sizes so far are below 10,240"
pub const BLOCK_SIZE: u64 = 10_240;

/// "Seven fields [...]: letters, type, from, at, to, BID, size". The letters
/// say the form. The four byte fields are shown where they lie.
#[derive(Clone, Copy, Debug, PartialEq, Eq)]
pub struct Proposal<'a> {
    pub form: Form,
    pub kind: Kind,
    pub from: &'a [u8],
    pub at: &'a [u8],
    pub to: &'a [u8],
    pub bid: &'a [u8],
    pub size: u32,
}

/// What a line says in a turn.
#[derive(Clone, Copy, Debug, PartialEq, Eq)]
pub enum TurnLine<'a> {
    /// `FF`: nothing to propose.
    Nothing,
    /// `FQ`: the session ends.
    Quit,
    /// `F>`: the block of proposals ends.
    BlockEnd,
    /// `F> HH`: it ends, and its lines should have this checksum.
    SummedEnd(u8),
    Proposal(Proposal<'a>),
}

/// Reads a trimmed line of a turn. Whether FF, FQ or one more proposal is
/// allowed just now is the session's business.
///
/// DECISIONS 14: with anything more on the line, FF, FQ and `F>` get 5; only the
/// checksum may stand there, "`F> HH`, two hexadecimal digits in either case".
/// DECISIONS 76: the space is one, as it is written.
pub fn read(line: &[u8], mode: Mode) -> Result<TurnLine<'_>, Refusal> {
    match line {
        [b'F' | b'f', b'F' | b'f'] => Ok(TurnLine::Nothing),
        [b'F' | b'f', b'Q' | b'q'] => Ok(TurnLine::Quit),
        [b'F' | b'f', b'>'] => Ok(TurnLine::BlockEnd),
        &[b'F' | b'f', b'>', b' ', high, low] => {
            read_checksum(high, low).map(TurnLine::SummedEnd).ok_or(Refusal::NotAllowed)
        }
        _ => read_proposal(line, mode).map(TurnLine::Proposal).ok_or(Refusal::NotAllowed),
    }
}

/// The number that two hexadecimal digits show.
fn read_checksum(high: u8, low: u8) -> Option<u8> {
    let digit = |byte: u8| char::from(byte).to_digit(16);
    Some((digit(high)? * 16 + digit(low)?) as u8)
}

/// "The sum of all bytes of the block's proposal lines as received, their CR
/// included, [...] plus HH must be 0 modulo 256."
pub fn is_checksum_of(proposal_lines: &[u8], checksum: u8) -> bool {
    transfer::checksum(proposal_lines) == checksum
}

/// "Seven fields, one or more spaces between".
fn read_proposal(line: &[u8], mode: Mode) -> Option<Proposal<'_>> {
    // Between, so not in front; those at the end are gone from a trimmed line.
    if line.starts_with(b" ") || line.ends_with(b" ") {
        return None;
    }
    let fields: Vec<&[u8]> =
        line.split(|&byte| byte == b' ').filter(|field| !field.is_empty()).collect();
    let (letters, kind, from, at, to, bid, size) = match fields.as_slice() {
        &[letters, kind, from, at, to, bid, size] => (letters, kind, from, at, to, bid, size),
        _ => return None,
    };
    let kind = match kind {
        &[kind] => kind,
        _ => return None,
    };
    let valid = is_call(from) && is_at(at) && is_call(to) && is_bid(bid);
    valid.then_some(Proposal {
        form: read_letters(letters, mode)?,
        kind: Kind::read(kind)?,
        from,
        at,
        to,
        bid,
        size: decimal(size)?,
    })
}

/// "In plain mode the letter is FB; in framed mode FA is a packed message and
/// FB a packed file."
fn read_letters(letters: &[u8], mode: Mode) -> Option<Form> {
    match (letters.to_ascii_uppercase().as_slice(), mode) {
        (b"FB", Mode::Plain) => Some(Form::Plain),
        (b"FA", Mode::Framed) => Some(Form::Message),
        (b"FB", Mode::Framed) => Some(Form::File),
        _ => None,
    }
}

/// The letters that propose a record of this form.
fn letters(form: Form) -> &'static [u8] {
    match form {
        Form::Message => b"FA",
        Form::Plain | Form::File => b"FB",
    }
}

/// Writes a line with its CR. "We write one space and no leading zeros."
pub fn write(line: &TurnLine<'_>) -> Vec<u8> {
    match line {
        TurnLine::Nothing => b"FF\r".to_vec(),
        TurnLine::Quit => b"FQ\r".to_vec(),
        TurnLine::BlockEnd => b"F>\r".to_vec(),
        // Written by partners alone: "We go on writing the bare form."
        TurnLine::SummedEnd(checksum) => format!("F> {checksum:02X}\r").into_bytes(),
        TurnLine::Proposal(p) => {
            write_fields(p.form, p.kind.byte(), [p.from, p.at, p.to, p.bid], p.size)
        }
    }
}

/// Writes a proposal of fields as they come, judged by nobody: the type byte,
/// then from, at, to and BID.
pub fn write_fields(form: Form, kind: u8, fields: [&[u8]; 4], size: u32) -> Vec<u8> {
    let [from, at, to, bid] = fields;
    let size = size.to_string();
    let mut line = [letters(form), &[kind], from, at, to, bid, size.as_bytes()].join(&b' ');
    line.push(CR);
    line
}

/// How many of the records that may be proposed go into our turn, by their
/// announced sizes in table order.
///
/// "A record is added while fewer than five are in and the announced sizes so
/// far are below 10,240; the one that overruns is still in."
pub fn block_length(sizes: &[u32]) -> usize {
    let mut so_far = 0;
    sizes
        .iter()
        .take(BLOCK_LIMIT)
        .take_while(|&&size| {
            let below = so_far < BLOCK_SIZE;
            so_far += u64::from(size);
            below
        })
        .count()
}

#[cfg(test)]
mod tests {
    use super::*;

    const EXAMPLE: &[u8] = b"FB P F6FBB FC1GHV FC1MVP 24657_F6FBB 1345";

    fn example(form: Form) -> Proposal<'static> {
        Proposal {
            form,
            kind: Kind::Private,
            from: b"F6FBB",
            at: b"FC1GHV",
            to: b"FC1MVP",
            bid: b"24657_F6FBB",
            size: 1345,
        }
    }

    fn refused(line: &[u8]) -> bool {
        [Mode::Plain, Mode::Framed].iter().all(|&mode| read(line, mode) == Err(Refusal::NotAllowed))
    }

    #[test]
    fn example_of_01_is_valid_and_without_its_size_5() {
        let read = |mode| read(EXAMPLE, mode);
        assert_eq!(read(Mode::Plain), Ok(TurnLine::Proposal(example(Form::Plain))));
        assert_eq!(read(Mode::Framed), Ok(TurnLine::Proposal(example(Form::File))));
        assert!(refused(b"FB P F6FBB FC1GHV FC1MVP 24657_F6FBB"));
    }

    #[test]
    fn letters_say_the_form() {
        let mut line = EXAMPLE.to_vec();
        line[1] = b'A';
        assert_eq!(read(&line, Mode::Framed), Ok(TurnLine::Proposal(example(Form::Message))));
        assert_eq!(read(&line, Mode::Plain), Err(Refusal::NotAllowed));
        line[1] = b'C';
        assert!(refused(&line));
    }

    #[test]
    fn either_case_is_taken_and_more_spaces() {
        let line = b"fb  p F6FBB   FC1GHV FC1MVP 24657_F6FBB  0001345";
        assert_eq!(read(line, Mode::Plain), Ok(TurnLine::Proposal(example(Form::Plain))));
        assert_eq!(read(b"ff", Mode::Plain), Ok(TurnLine::Nothing));
        assert_eq!(read(b"Fq", Mode::Framed), Ok(TurnLine::Quit));
        assert_eq!(read(b"f>", Mode::Plain), Ok(TurnLine::BlockEnd));
    }

    #[test]
    fn anything_else_gets_5() {
        for line in [
            &b""[..],
            b"F",
            b"FF ",
            b"FFF",
            b" FF",
            b"FQ x",
            b"F >",
            b"F>12",
            b"F>  12",
            b"F>\t12",
            b"F> 1",
            b"F> 123",
            b"F> 12 ",
            b"F> 12 3",
            b"F> 0G",
            b"F> G0",
            b"F> g0",
            b"F> -1",
            b"F> +1",
            b"F> 0x",
            b"F> \xB2\xB3",
            b"F>>12",
            b" F> 12",
            b"FF 12",
            b"FQ 12",
            b"FS +",
            b" FB P F6FBB FC1GHV FC1MVP 24657_F6FBB 1345",
            b"FB P F6FBB FC1GHV FC1MVP 24657_F6FBB 1345 ",
            b"FB P F6FBB FC1GHV FC1MVP 24657_F6FBB 1345 1",
            b"FB T F6FBB FC1GHV FC1MVP 24657_F6FBB 1345",
            b"FB PP F6FBB FC1GHV FC1MVP 24657_F6FBB 1345",
            b"FB\tP F6FBB FC1GHV FC1MVP 24657_F6FBB 1345",
        ] {
            assert!(refused(line), "{line:?}");
        }
    }

    /// "two hexadecimal digits in either case"
    #[test]
    fn a_block_may_end_with_its_checksum() {
        for mode in [Mode::Plain, Mode::Framed] {
            for checksum in 0..=255 {
                let upper = format!("F> {checksum:02X}").into_bytes();
                let lower = upper.to_ascii_lowercase();
                assert_eq!(read(&upper, mode), Ok(TurnLine::SummedEnd(checksum)));
                assert_eq!(read(&lower, mode), Ok(TurnLine::SummedEnd(checksum)));
                assert_eq!(write(&TurnLine::SummedEnd(checksum)), [&upper[..], b"\r"].concat());
            }
            assert_eq!(read(b"f> aF", mode), Ok(TurnLine::SummedEnd(0xAF)));
        }
    }

    #[test]
    fn the_sum_of_the_lines_and_hh_is_0_modulo_256() {
        assert!(is_checksum_of(b"", 0));
        assert!(is_checksum_of(b"\r", 0xF3));
        // 70 + 66 + 13 = 149, and 256 - 149 = 0x6B.
        assert!(is_checksum_of(b"FB\r", 0x6B));
        assert!(!is_checksum_of(b"FB\r", 0x6C));
        assert!(!is_checksum_of(b"FB\r", 149));
        for wrong in 1..=255 {
            assert!(!is_checksum_of(b"", wrong));
        }
        // A real LinFBB's block: tests/peers/captures.
        let real = b"FB P F0AAA N0DE.TST.FRA.EU N0DE 1_F0SRC 19\r";
        let sum: u32 = real.iter().map(|&byte| u32::from(byte)).sum();
        assert!(is_checksum_of(real, (256 - sum % 256) as u8));
    }

    /// A proposal with fields of these lengths: from, at, to, BID, size digits.
    fn with_lengths(lengths: [usize; 5]) -> Vec<u8> {
        let [from, at, to, bid, size] = lengths.map(|n| vec![b'1'; n]);
        [&b"FB"[..], b"B", &from, &at, &to, &bid, &size].join(&b' ')
    }

    #[test]
    fn field_lengths_are_limited() {
        let most = [6, 6, 6, 12, 9];
        assert!(!refused(&with_lengths(most)));
        assert!(!refused(&with_lengths([1; 5])));
        for field in 0..5 {
            let mut below = most;
            below[field] -= 1;
            assert!(!refused(&with_lengths(below)));
            let mut above = most;
            above[field] += 1;
            assert!(refused(&with_lengths(above)));
            let mut empty = most;
            empty[field] = 0;
            assert!(refused(&with_lengths(empty)));
        }
    }

    #[test]
    fn what_we_write_reads_back() {
        for (form, mode) in
            [(Form::Plain, Mode::Plain), (Form::Message, Mode::Framed), (Form::File, Mode::Framed)]
        {
            let line = write(&TurnLine::Proposal(example(form)));
            let (cr, line) = line.split_last().unwrap();
            assert_eq!(*cr, CR);
            assert_eq!(read(line, mode), Ok(TurnLine::Proposal(example(form))));
        }
        assert_eq!(write(&TurnLine::Proposal(example(Form::File))), [EXAMPLE, b"\r"].concat());
        assert_eq!(write(&TurnLine::Nothing), b"FF\r");
        assert_eq!(write(&TurnLine::Quit), b"FQ\r");
        assert_eq!(write(&TurnLine::BlockEnd), b"F>\r");
    }

    #[test]
    fn block_examples_of_01() {
        assert_eq!(block_length(&[1345, 5346, 8548, 1]), 3);
        assert_eq!(block_length(&[10_239, 1, 1]), 2);
    }

    #[test]
    fn block_has_five_at_most_and_stops_at_10240() {
        for (waiting, proposed) in [(0, 0), (1, 1), (4, 4), (5, 5), (6, 5), (64, 5)] {
            assert_eq!(block_length(&vec![0; waiting]), proposed);
        }
        assert_eq!(block_length(&[10_239, 0, 0, 0, 0, 0]), 5);
        assert_eq!(block_length(&[10_240, 1]), 1);
        assert_eq!(block_length(&[10_241, 1]), 1);
        assert_eq!(block_length(&[5_000, 5_239, 999_999, 1]), 3);
        assert_eq!(block_length(&[u32::MAX; 5]), 1);
    }
}
