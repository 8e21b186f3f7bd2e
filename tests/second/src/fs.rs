//! FS lines: the answer to a block of proposals.

use crate::line::CR;
use crate::proposal::BLOCK_LIMIT;
use crate::refusal::Refusal;
use crate::sid::Level;

/// Digits that an offset behind `!` or `A` may have.
const OFFSET_DIGITS: usize = 6;

/// "`+` accept, `-` decline, `=` defer"
#[derive(Clone, Copy, Debug, PartialEq, Eq)]
pub enum Sign {
    Accept,
    Decline,
    Defer,
}

impl Sign {
    /// 01's own signs, at every level.
    pub const fn read(byte: u8) -> Option<Sign> {
        match byte {
            b'+' => Some(Sign::Accept),
            b'-' => Some(Sign::Decline),
            b'=' => Some(Sign::Defer),
            _ => None,
        }
    }

    pub const fn byte(self) -> u8 {
        match self {
            Sign::Accept => b'+',
            Sign::Decline => b'-',
            Sign::Defer => b'=',
        }
    }

    /// "At level 1 we also read, in either case, `Y` as `+`, `N` as `-`, `L` as `=`,
    /// `H` as accepted though held over there, `R` as declined, and `E` as deferred."
    fn letter(byte: u8) -> Option<Sign> {
        match byte.to_ascii_uppercase() {
            b'Y' | b'H' => Some(Sign::Accept),
            b'N' | b'R' => Some(Sign::Decline),
            b'L' | b'E' => Some(Sign::Defer),
            _ => None,
        }
    }

    /// "`!` or `A` with 1 to 6 digits is accepted if the number is 0; a greater one
    /// counts as deferred." "a seventh digit, or none, gets 7"
    fn offset(byte: u8, digits: &[u8]) -> Option<Sign> {
        if !b"!Aa".contains(&byte) || !(1..=OFFSET_DIGITS).contains(&digits.len()) {
            return None;
        }
        if digits.iter().all(|&digit| digit == b'0') {
            Some(Sign::Accept)
        } else {
            Some(Sign::Defer)
        }
    }

    /// What one piece of the line says: a byte that is no digit, and the digits that
    /// follow it, which are its own.
    fn piece(piece: &[u8], level: Level) -> Option<Sign> {
        match (piece, level) {
            ([byte], Level::Zero) => Sign::read(*byte),
            ([byte], Level::One) => Sign::read(*byte).or(Sign::letter(*byte)),
            ([byte, digits @ ..], Level::One) => Sign::offset(*byte, digits),
            _ => None,
        }
    }
}

/// Reads a trimmed line where FS is awaited for so many proposals.
///
/// "Where FS is awaited, a wrong line that begins with FS gets 7 and any other
/// 5". DECISIONS 16: in either case, and whatever follows the two letters.
/// "Refusals: no new ones".
pub fn read(line: &[u8], proposals: usize, level: Level) -> Result<Vec<Sign>, Refusal> {
    match line {
        [b'F' | b'f', b'S' | b's', rest @ ..] => {
            read_signs(rest, proposals, level).ok_or(Refusal::WrongFs)
        }
        _ => Err(Refusal::NotAllowed),
    }
}

/// "FS, one space, one sign a proposal". A block has five at most, so no line
/// answers more.
fn read_signs(rest: &[u8], proposals: usize, level: Level) -> Option<Vec<Sign>> {
    let pieces = cut(rest.strip_prefix(b" ")?)?;
    if proposals > BLOCK_LIMIT || pieces.len() != proposals {
        return None;
    }
    pieces.iter().map(|piece| Sign::piece(piece, level)).collect()
}

/// The mark of each sign on a line that is one, letters as capitals.
pub fn marks(line: &[u8]) -> Vec<u8> {
    let pieces = line.get(b"FS ".len()..).and_then(cut).unwrap_or_default();
    pieces.iter().map(|piece| piece[0].to_ascii_uppercase()).collect()
}

/// All pieces of the line, before any is judged: each begins with a byte that is no
/// digit and has the digits behind it. `None` where the line begins with a digit.
fn cut(signs: &[u8]) -> Option<Vec<&[u8]>> {
    let mut starts: Vec<usize> =
        (0..signs.len()).filter(|&at| !signs[at].is_ascii_digit()).collect();
    if !signs.is_empty() && starts.first() != Some(&0) {
        return None;
    }
    starts.push(signs.len());
    Some(starts.windows(2).map(|ends| &signs[ends[0]..ends[1]]).collect())
}

/// Writes an FS line with its CR.
pub fn write(signs: &[Sign]) -> Vec<u8> {
    let bytes: Vec<u8> = signs.iter().map(|sign| sign.byte()).collect();
    write_bytes(&bytes)
}

/// Writes an FS line of sign bytes as they come, judged by nobody.
pub fn write_bytes(signs: &[u8]) -> Vec<u8> {
    [b"FS ", signs, &[CR]].concat()
}

#[cfg(test)]
mod tests {
    use super::Sign::*;
    use super::*;
    use crate::sid::Level::{One, Zero};

    #[test]
    fn examples_of_01() {
        for level in [Zero, One] {
            assert_eq!(read(b"FS -+=", 3, level), Ok(vec![Decline, Accept, Defer]));
            assert_eq!(read(b"FS -+", 3, level), Err(Refusal::WrongFs));
        }
    }

    /// 002: "FS YLA3350RH [...] first message accepted, second deferred, third at 3350,
    /// fourth refused, fifth accepted but held".
    #[test]
    fn example_of_002() {
        let signs = vec![Accept, Defer, Defer, Decline, Accept];
        assert_eq!(read(b"FS YLA3350RH", 5, One), Ok(signs));
        assert_eq!(read(b"FS YLA3350RH", 5, Zero), Err(Refusal::WrongFs));
    }

    #[test]
    fn every_byte_alone() {
        let taken = |level| -> Vec<u8> {
            (0..=255).filter(|&b| read(&[b'F', b'S', b' ', b], 1, level).is_ok()).collect()
        };
        assert_eq!(taken(Zero), b"+-=");
        assert_eq!(taken(One), b"+-=EHLNRYehlnry");
        for sign in [Accept, Decline, Defer] {
            assert_eq!(Sign::read(sign.byte()), Some(sign));
        }
        let alone = |byte| read(&[b'F', b'S', b' ', byte], 1, One).unwrap()[0];
        assert_eq!(b"+YyHh".map(alone), [Accept; 5]);
        assert_eq!(b"-NnRr".map(alone), [Decline; 5]);
        assert_eq!(b"=LlEe".map(alone), [Defer; 5]);
    }

    #[test]
    fn numbers_from_0_on_behind_their_mark() {
        for mark in ["!", "A", "a"] {
            for (digits, sign) in [
                ("0", Some(Accept)),
                ("00", Some(Accept)),
                ("000000", Some(Accept)),
                ("1", Some(Defer)),
                ("000001", Some(Defer)),
                ("123456", Some(Defer)),
                ("999999", Some(Defer)),
                ("", None),
                ("0000000", None),
                ("0000001", None),
                ("1234567", None),
                (" 0", None),
                ("+", None),
            ] {
                let line = ["FS ", mark, digits].concat();
                let expected = sign.map(|sign| vec![sign]).ok_or(Refusal::WrongFs);
                assert_eq!(read(line.as_bytes(), 1, One), expected, "{line}");
                assert_eq!(read(line.as_bytes(), 1, Zero), Err(Refusal::WrongFs), "{line}");
            }
        }
        for other in ["+0", "Y0", "H1", "0", "0+", "0A1"] {
            let line = ["FS ", other].concat();
            for proposals in 1..4 {
                assert_eq!(read(line.as_bytes(), proposals, One), Err(Refusal::WrongFs), "{line}");
            }
        }
    }

    #[test]
    fn digits_belong_to_the_sign_before_them() {
        assert_eq!(read(b"FS A123456+", 2, One), Ok(vec![Defer, Accept]));
        assert_eq!(read(b"FS !0a00N", 3, One), Ok(vec![Accept, Accept, Decline]));
        assert_eq!(read(b"FS A0A0A0A0A1", 5, One), Ok(vec![Accept, Accept, Accept, Accept, Defer]));
        assert_eq!(read(b"FS A0", 2, One), Err(Refusal::WrongFs));
        assert_eq!(read(b"FS A1234567", 2, One), Err(Refusal::WrongFs));
        assert_eq!(read(b"FS A12+", 4, One), Err(Refusal::WrongFs));
    }

    #[test]
    fn one_sign_a_proposal_up_to_five() {
        for proposals in 0..8 {
            for signs in 1..8 {
                let line = write(&vec![Accept; signs]);
                for level in [Zero, One] {
                    let answer = read(&line[..line.len() - 1], proposals, level);
                    if signs == proposals && proposals <= 5 {
                        assert_eq!(answer, Ok(vec![Accept; signs]));
                    } else {
                        assert_eq!(answer, Err(Refusal::WrongFs));
                    }
                }
            }
        }
    }

    #[test]
    fn what_begins_with_fs_gets_7_and_any_other_line_5() {
        for level in [Zero, One] {
            for wrong in [&b"FS"[..], b"fs", b"FSX", b"FS+", b"FS  +", b"FS + ", b"FS\t+", b"FS X"]
            {
                assert_eq!(read(wrong, 1, level), Err(Refusal::WrongFs));
            }
            for other in [&b""[..], b"F", b"S", b" FS +", b"F S+", b"FF", b"+", b"Y"] {
                assert_eq!(read(other, 1, level), Err(Refusal::NotAllowed));
            }
            assert_eq!(read(b"fs =", 1, level), Ok(vec![Defer]));
            assert_eq!(read(b"Fs -", 1, level), Ok(vec![Decline]));
        }
        assert_eq!(read(b"FS Y", 1, Zero), Err(Refusal::WrongFs));
    }

    #[test]
    fn written_as_capitals_with_one_space() {
        assert_eq!(write(&[Decline, Accept, Defer]), b"FS -+=\r");
    }
}
