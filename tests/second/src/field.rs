//! Fields: which bytes they may hold, and how many.

/// "from and to have 1 to 6 bytes"
pub const CALL_MAX: usize = 6;
/// At: "38 bytes in all"
pub const AT_MAX: usize = 38;
/// At: "31 after the first `.` at most"
pub const HIERARCHY_MAX: usize = 31;
/// "A BID has 1 to 12 bytes"
pub const BID_MAX: usize = 12;
/// "A title or name has 1 to 80 bytes"
pub const HEADING_MAX: usize = 80;
/// "size (1 to 9 digits)"
pub const SIZE_DIGITS: usize = 9;
/// "A body has at most 65,535 bytes"
pub const BODY_MAX: usize = 65_535;
/// The byte that closes a plain body, and so cannot stand in one.
pub const BODY_END: u8 = 0x1A;

/// From and to: "bytes in 0x21-0x7E without `@` and `.`".
pub fn is_call_byte(byte: u8) -> bool {
    matches!(byte, 0x21..=0x7E) && byte != b'@' && byte != b'.'
}

/// "A BID has 1 to 12 bytes in 0x21-0xFF."
pub fn is_bid_byte(byte: u8) -> bool {
    byte >= 0x21
}

/// "A title or name has 1 to 80 bytes in 0x20-0xFF."
pub fn is_heading_byte(byte: u8) -> bool {
    byte >= 0x20
}

/// One field of so many bytes at most, one at least, all of one class.
fn is_run(bytes: &[u8], limit: usize, class: fn(u8) -> bool) -> bool {
    (1..=limit).contains(&bytes.len()) && bytes.iter().all(|&byte| class(byte))
}

/// "from and to have 1 to 6 bytes in 0x21-0x7E without `@` and `.`."
pub fn is_call(bytes: &[u8]) -> bool {
    is_run(bytes, CALL_MAX, is_call_byte)
}

/// "At is one to several parts of 1 to 6 such bytes joined by `.`, 38 bytes in
/// all and 31 after the first `.` at most."
pub fn is_at(bytes: &[u8]) -> bool {
    let tail = match bytes.iter().position(|&byte| byte == b'.') {
        Some(dot) => &bytes[dot + 1..],
        None => &[],
    };
    bytes.len() <= AT_MAX
        && tail.len() <= HIERARCHY_MAX
        && bytes.split(|&byte| byte == b'.').all(is_call)
}

/// "A BID has 1 to 12 bytes in 0x21-0xFF."
pub fn is_bid(bytes: &[u8]) -> bool {
    is_run(bytes, BID_MAX, is_bid_byte)
}

/// "Two BIDs are now equal when they agree after A-Z and a-z are taken as one.
/// Bytes from 0x80 still compare exactly."
pub fn same_bid(one: &[u8], other: &[u8]) -> bool {
    one.eq_ignore_ascii_case(other)
}

/// "A title or name has 1 to 80 bytes in 0x20-0xFF."
pub fn is_heading(bytes: &[u8]) -> bool {
    is_run(bytes, HEADING_MAX, is_heading_byte)
}

/// "A body has at most 65,535 bytes; a plain body holds no 0x1A."
pub fn is_plain_body(bytes: &[u8]) -> bool {
    is_packed_body(bytes) && !bytes.contains(&BODY_END)
}

/// "A body has at most 65,535 bytes". DECISIONS 56: a packed one may hold 0x1A.
pub fn is_packed_body(bytes: &[u8]) -> bool {
    bytes.len() <= BODY_MAX
}

/// "size (1 to 9 digits)". DECISIONS 15: zeros in front are taken.
/// Nine digits stay below 2^32, so nothing overflows.
pub fn decimal(bytes: &[u8]) -> Option<u32> {
    if !is_run(bytes, SIZE_DIGITS, |byte| byte.is_ascii_digit()) {
        return None;
    }
    let value = |so_far: u32, digit: &u8| so_far * 10 + u32::from(digit - b'0');
    Some(bytes.iter().fold(0, value))
}

#[cfg(test)]
mod tests {
    use super::*;

    /// The bytes of a class, as ranges, to hold against the sentence of 01.
    fn members(class: fn(u8) -> bool) -> Vec<u8> {
        (0..=255).filter(|&byte| class(byte)).collect()
    }

    #[test]
    fn classes_hold_the_bytes_of_01_and_no_other() {
        let call: Vec<u8> = (0x21..=0x2D).chain(0x2F..=0x3F).chain(0x41..=0x7E).collect();
        assert_eq!(members(is_call_byte), call);
        assert_eq!(members(is_bid_byte), (0x21..=0xFF).collect::<Vec<u8>>());
        assert_eq!(members(is_heading_byte), (0x20..=0xFF).collect::<Vec<u8>>());
    }

    #[test]
    fn call_has_1_to_6_bytes() {
        let lengths: Vec<usize> = (0..9).filter(|&n| is_call(&vec![b'A'; n])).collect();
        assert_eq!(lengths, [1, 2, 3, 4, 5, 6]);
        assert!(!is_call(b"F6@BB"));
        assert!(!is_call(b"F6.BB"));
        assert!(!is_call(b"F6 BB"));
        assert!(!is_call(b"F6\x80"));
    }

    #[test]
    fn at_parts_have_1_to_6_bytes() {
        assert!(is_at(b"FC1GHV"));
        assert!(is_at(b"FC1GHV.FFPC.FRA.EU"));
        assert!(is_at(b"A.B"));
        assert!(!is_at(b""));
        assert!(!is_at(b"."));
        assert!(!is_at(b".A"));
        assert!(!is_at(b"A."));
        assert!(!is_at(b"A..B"));
        assert!(!is_at(b"ABCDEFG"));
        assert!(!is_at(b"A.ABCDEFG.B"));
        assert!(!is_at(b"A@B"));
    }

    #[test]
    fn at_has_38_bytes_in_all_and_31_after_the_first_dot() {
        // 6 + 1 + 31 = 38: both limits met at once.
        assert!(is_at(b"ABCDEF.ABCDEF.ABCDEF.ABCDEF.ABCDEF.ABC"));
        assert!(!is_at(b"ABCDEF.ABCDEF.ABCDEF.ABCDEF.ABCDEF.ABCD"));
        // 31 after the first dot with a shorter first part: still too long at 32.
        assert!(is_at(b"A.ABCDEF.ABCDEF.ABCDEF.ABCDEF.ABC"));
        assert!(!is_at(b"A.ABCDEF.ABCDEF.ABCDEF.ABCDEF.ABCD"));
        assert!(is_at(b"A.ABCDEF.ABCDEF.ABCDEF.ABCDEF.AB"));
    }

    #[test]
    fn bid_has_1_to_12_bytes_and_keeps_those_from_0x80() {
        let lengths: Vec<usize> = (0..15).filter(|&n| is_bid(&vec![0xE9; n])).collect();
        assert_eq!(lengths, (1..=12).collect::<Vec<_>>());
        assert!(is_bid(b"24657_F6FBB"));
        assert!(!is_bid(b"24657 F6FBB"));
    }

    #[test]
    fn bids_are_one_but_for_the_case_of_a_to_z() {
        assert!(same_bid(b"1_A", b"1_A"));
        assert!(same_bid(b"12_ab", b"12_AB"));
        assert!(!same_bid(b"1_A", b"1_A "));
        assert!(!same_bid(b"1_\xE9", b"1_\x69"));
        for one in 0..=255_u8 {
            let with = |other: u8| same_bid(&[b'1', one], &[b'1', other]);
            let same: Vec<u8> = (0..=255).filter(|&other| with(other)).collect();
            let expected = match one {
                b'A'..=b'Z' => vec![one, one + 32],
                b'a'..=b'z' => vec![one - 32, one],
                _ => vec![one],
            };
            assert_eq!(same, expected, "{one:#04X}");
        }
    }

    #[test]
    fn heading_has_1_to_80_bytes() {
        let lengths: Vec<usize> = (0..85).filter(|&n| is_heading(&vec![b' '; n])).collect();
        assert_eq!(lengths, (1..=80).collect::<Vec<_>>());
        assert!(!is_heading(b"a\tb"));
    }

    #[test]
    fn body_has_at_most_65535_bytes() {
        for (length, valid) in [(0, true), (65_534, true), (65_535, true), (65_536, false)] {
            assert_eq!(is_plain_body(&vec![0; length]), valid);
            assert_eq!(is_packed_body(&vec![BODY_END; length]), valid);
        }
        assert!(!is_plain_body(b"a\x1Ab"));
    }

    #[test]
    fn size_has_1_to_9_digits() {
        assert_eq!(decimal(b""), None);
        assert_eq!(decimal(b"0"), Some(0));
        assert_eq!(decimal(b"1345"), Some(1345));
        assert_eq!(decimal(b"000001345"), Some(1345));
        assert_eq!(decimal(b"99999999"), Some(99_999_999));
        assert_eq!(decimal(b"999999999"), Some(999_999_999));
        assert_eq!(decimal(b"0000000000"), None);
        assert_eq!(decimal(b"1/"), None);
        assert_eq!(decimal(b"1:"), None);
        assert_eq!(decimal(b"-1"), None);
    }
}
