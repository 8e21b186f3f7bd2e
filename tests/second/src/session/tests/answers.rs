//! "Our answer, per proposal in order".

use super::end::{plain_table, state_at, End, PARTNER};
use crate::host::Buffers;

/// Proposals of these BIDs and sizes, and `F>`.
fn block(proposals: &[(&str, u32)]) -> Vec<u8> {
    let line = |(bid, size): &(&str, u32)| format!("FB B THEM US ME {bid} {size}\r");
    let lines: String = proposals.iter().map(line).collect();
    [lines.as_bytes(), b"F>\r"].concat()
}

/// The signs of the FS line that answers.
fn signs(end: &mut End, proposals: &[(&str, u32)]) -> String {
    end.hears(&block(proposals));
    let said = end.say();
    let line = said.split(|&byte| byte == b'\r').next().expect("a line");
    String::from_utf8(line.strip_prefix(b"FS ").expect("FS").to_vec()).expect("signs")
}

/// "`-` if the BID is in the table, the known list, the inbox, or accepted earlier
/// in this block". DECISIONS 47: the table counts in any state and form, a BID
/// deferred earlier in the block is judged anew.
#[test]
fn copies_are_declined() {
    let mut buffers = plain_table(&[1, 1, 1]);
    buffers.know(b"7_KNOWN");
    buffers.table[state_at(1, PARTNER)] = 1;
    buffers.table[state_at(2, PARTNER)] = 2;
    let mut end = End::called(&buffers);
    let first = [("1_US", 5), ("2_US", 5), ("3_US", 5), ("7_KNOWN", 5), ("1_US ", 5)];
    assert_eq!(signs(&mut end, &first), "-----");
    end.hears(b"FS =\r");
    let second = [("1_UT", 5), ("1_UT", 5), ("9_X", 9999), ("9_X", 5), ("9_X", 9999)];
    assert_eq!(signs(&mut end, &second), "+-=+-");
    end.hears(b"T\ra\x1A\rT\rb\x1A\r");
    end.say();
    assert_eq!(signs(&mut end, &[("1_UT", 5), ("9_X", 5), ("9_Y", 5)]), "--+");
}

/// "A partner's program writes BIDs in capitals, so our byte-by-byte test misses
/// the copy." In the table, the known list, the block and the inbox; what is kept
/// keeps its spelling.
#[test]
fn copies_in_another_case_are_declined() {
    let mut buffers = plain_table(&[1]);
    buffers.know(b"7_knOwn");
    let mut end = End::called(&buffers);
    let first = [("1_us", 5), ("7_KNOWN", 5), ("9_a[", 5), ("9_A[", 5), ("9_a{", 5)];
    assert_eq!(signs(&mut end, &first), "--+-+");
    end.hears(b"T\ra\x1A\rT\rb\x1A\r");
    let kept: Vec<Vec<u8>> = end.kept().into_iter().map(|kept| kept.envelope.bid).collect();
    assert_eq!(kept, [b"9_a[", b"9_a{"]);
    end.say();
    end.hears(b"FS =\r");
    assert_eq!(signs(&mut end, &[("9_A[", 5), ("9_A{", 5), ("9_a", 5)]), "--+");
}

/// "else `=` if the size is over 65,535"
#[test]
fn a_size_over_65535_is_deferred() {
    let buffers = Buffers::new(8, 1_000_000);
    let sizes = [("1", 65_535), ("2", 65_536), ("3", 999_999_999), ("4", 65_534)];
    assert_eq!(signs(&mut End::called(&buffers), &sizes), "+==+");
}

/// "or over the free store less the sizes accepted in this block". DECISIONS 46:
/// "its size less the bodies kept in this session as they came".
#[test]
fn a_size_over_the_free_store_is_deferred() {
    let mut end = End::called(&Buffers::new(8, 100));
    let sizes = [("1", 101), ("2", 60), ("3", 41), ("4", 40), ("5", 0)];
    assert_eq!(signs(&mut end, &sizes), "=+=++");
    // Ten, nothing and thirty bytes come, so sixty are free.
    end.hears(b"T\r0123456789\x1A\rT\r\x1A\rT\r012345678901234567890123456789\x1A\r");
    end.say();
    assert_eq!(signs(&mut end, &[("6", 61), ("7", 60), ("8", 1), ("9", 0)]), "=+=+");
}

#[test]
fn an_empty_store_takes_empty_messages() {
    let mut end = End::called(&Buffers::new(8, 0));
    assert_eq!(signs(&mut end, &[("1", 1), ("2", 0)]), "=+");
    end.hears(b"T\r\x1A\r");
    assert_eq!(end.kept().len(), 1);
}

/// "or no inbox place is free for it"
#[test]
fn without_a_free_place_a_message_is_deferred() {
    let mut end = End::called(&Buffers::new(3, 100));
    assert_eq!(signs(&mut end, &[("1", 1), ("2", 1)]), "++");
    end.hears(b"T\ra\x1A\rT\rb\x1A\r");
    end.say();
    // A copy needs no place.
    assert_eq!(signs(&mut end, &[("1", 1), ("3", 1), ("4", 1), ("3", 1)]), "-+=-");
    end.hears(b"T\rc\x1A\r");
    end.say();
    assert_eq!(signs(&mut end, &[("5", 0)]), "=");
    assert_eq!(signs(&mut End::called(&Buffers::new(0, 100)), &[("1", 0)]), "=");
}

/// "type as a capital", fields as read, zeros in front of a size taken.
#[test]
fn fields_are_kept_as_read() {
    let mut end = End::called(&Buffers::new(1, 100));
    end.hears(b"fb  b them   us.eu Me  1_Them 000000005  \rf>\r");
    end.says(b"FS +\r");
    end.hears(b" a title \rtext\x1A   \r");
    let kept = &end.kept()[0];
    let envelope = &kept.envelope;
    assert_eq!(envelope.kind.byte(), b'B');
    assert_eq!((&envelope.from[..], &envelope.at[..]), (&b"them"[..], &b"us.eu"[..]));
    assert_eq!((&envelope.to[..], &envelope.bid[..]), (&b"Me"[..], &b"1_Them"[..]));
    assert_eq!((&kept.heading[..], &kept.body[..]), (&b" a title "[..], &b"text"[..]));
}
