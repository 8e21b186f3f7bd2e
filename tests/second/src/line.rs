//! Lines: where they end, what of them counts, and which are passed over.

use crate::refusal::Refusal;

pub const CR: u8 = 0x0D;
pub const LF: u8 = 0x0A;
/// A line holds 256 bytes at most; DECISIONS 8: spaces at the end included.
pub const LINE_LIMIT: usize = 256;

/// What one received byte does where a line is awaited.
#[derive(Clone, Copy, Debug, PartialEq, Eq)]
pub enum Step {
    /// The one LF that follows a CR: consumed, and part of no line.
    Dropped,
    /// The CR that ends the line.
    End,
    /// One byte more of the line.
    More,
}

/// Takes one byte after `length` bytes of a line. `after_cr`: the byte before
/// it was the CR of a line or the one that closes a plain transfer.
///
/// "One LF directly after the CR that ended a line, or after the CR that closes
/// a plain transfer, is dropped [...] Any other LF is an ordinary byte."
/// Refusal 2: "a 257th byte of a line comes before CR".
pub fn step(after_cr: bool, length: usize, byte: u8) -> Result<Step, Refusal> {
    match byte {
        LF if after_cr => Ok(Step::Dropped),
        CR => Ok(Step::End),
        _ if length < LINE_LIMIT => Ok(Step::More),
        _ => Err(Refusal::LineTooLong),
    }
}

/// "Spaces at the end are removed before a line is judged." DECISIONS 10: spaces
/// only, and none in front.
pub fn trimmed(line: &[u8]) -> &[u8] {
    let end = line.iter().rposition(|&byte| byte != b' ');
    &line[..end.map_or(0, |last| last + 1)]
}

/// A line's bytes with the CR that ended it.
pub fn with_cr(line: &[u8]) -> Vec<u8> {
    [line, &[CR]].concat()
}

/// "A line that begins with `;` is ignored wherever a line is awaited".
pub fn is_comment(line: &[u8]) -> bool {
    line.starts_with(b";")
}

/// "A prompt is a line whose last byte is its only `>`."
/// The line comes trimmed, as everywhere (DECISIONS 10).
pub fn is_prompt(line: &[u8]) -> bool {
    match line.split_last() {
        Some((b'>', before)) => !before.contains(&b'>'),
        _ => false,
    }
}

#[cfg(test)]
mod tests {
    use super::*;

    #[test]
    fn one_lf_after_cr_is_dropped_and_any_other_is_ordinary() {
        assert_eq!(step(true, 0, LF), Ok(Step::Dropped));
        assert_eq!(step(false, 0, LF), Ok(Step::More));
        assert_eq!(step(false, 7, LF), Ok(Step::More));
    }

    #[test]
    fn cr_ends_a_line_of_any_length() {
        for length in [0, 1, 255, 256] {
            assert_eq!(step(false, length, CR), Ok(Step::End));
        }
        assert_eq!(step(true, 0, CR), Ok(Step::End));
    }

    #[test]
    fn the_257th_byte_is_refused() {
        for byte in (0..=255).filter(|&byte| byte != CR) {
            assert_eq!(step(false, 254, byte), Ok(Step::More));
            assert_eq!(step(false, 255, byte), Ok(Step::More));
            assert_eq!(step(false, 256, byte), Err(Refusal::LineTooLong));
        }
    }

    #[test]
    fn spaces_at_the_end_are_removed() {
        assert_eq!(trimmed(b""), b"");
        assert_eq!(trimmed(b"   "), b"");
        assert_eq!(trimmed(b"FF  "), b"FF");
        assert_eq!(trimmed(b" FF\t "), b" FF\t");
        assert_eq!(trimmed(b"F F"), b"F F");
    }

    #[test]
    fn comment_begins_with_semicolon() {
        assert!(is_comment(b";"));
        assert!(is_comment(b"; hello"));
        assert!(!is_comment(b" ;"));
        assert!(!is_comment(b""));
    }

    #[test]
    fn prompt_ends_with_its_only_mark() {
        assert!(is_prompt(b">"));
        assert!(is_prompt(b"F>"));
        assert!(is_prompt(b"de F6FBB (H for help)>"));
        assert!(!is_prompt(b""));
        assert!(!is_prompt(b"hello"));
        assert!(!is_prompt(b">>"));
        assert!(!is_prompt(b"> "));
        assert!(!is_prompt(b"a>b>"));
    }
}
