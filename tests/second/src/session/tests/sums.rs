//! Request Q-5: a block may end with `F> HH`, its checksum.

use super::end::{plain_table, proposals, transfers, End, CALLER};
use crate::host::Buffers;
use crate::memory::State::{Forwarded, Waiting};
use crate::refusal::{LINE_NOT_ALLOWED, NOT_SID, PROPOSAL_COUNT, WRONG_BLOCK_SUM};

const ONE: &[u8] = b"FB P THEM US ME 1_THEM 7\r";
const TWO: &[u8] = b"FB P THEM US ME 2_THEM 5\r";

fn empty() -> Buffers {
    plain_table(&[])
}

/// The number that makes the sum of these bytes 0 modulo 256.
fn right(lines: &[u8]) -> u8 {
    let sum: usize = lines.iter().map(|&byte| usize::from(byte)).sum();
    (256 - sum % 256) as u8
}

/// What was said, and `F> HH` with this number.
fn ended(said: &[u8], checksum: u8) -> Vec<u8> {
    [said, format!("F> {checksum:02X}\r").as_bytes()].concat()
}

/// The called end takes what was said with the checksum of these lines, and with
/// no other.
fn only(said: &[u8], summed: &[u8]) {
    for checksum in 0..=255 {
        let turn = ended(said, checksum);
        if checksum == right(summed) {
            End::called(&empty()).hears(&turn);
        } else {
            End::called(&empty()).refuses(&turn, WRONG_BLOCK_SUM);
        }
    }
}

/// "The sum of all bytes of the block's proposal lines as received, their CR
/// included, `;` lines and dropped LFs excluded, plus HH must be 0 modulo 256."
#[test]
fn the_lines_are_summed_as_received() {
    only(ONE, ONE);
    only(&[ONE, TWO].concat(), &[ONE, TWO].concat());
    let spaced = b"FB   P  THEM US ME 1_THEM 5  \r";
    only(spaced, spaced);
    let small = b"fb p THEM US ME 1_THEM 0005\r";
    only(small, small);
    only(&[&b"; a\r"[..], ONE, b"; b  \r\n", TWO, b";\r"].concat(), &[ONE, TWO].concat());
    only(&[ONE, b"\n", TWO, b"\n"].concat(), &[ONE, TWO].concat());
    let five: Vec<u8> =
        (1..=5).flat_map(|n| format!("FB P THEM US ME {n}_THEM 5\r").into_bytes()).collect();
    only(&five, &five);
    let accents = b"FB P THEM US ME \xE9\xFF_THEM 5\r";
    only(accents, accents);
}

/// Lines that sum to 0 modulo 256 by themselves have the checksum 00.
#[test]
fn sum_00() {
    let zero = b"FB P THEM US ME 1_THEM 5\r";
    assert_eq!(right(zero), 0);
    only(zero, zero);
}

/// "A bare `F>` is still taken", and spaces at the end are removed here too.
#[test]
fn the_bare_form_is_taken_and_spaces_at_the_end_are_removed() {
    for end in [&b"F>\r"[..], b"f>\r", b"F>  \r", b"F>\r\n"] {
        End::called(&empty()).hears(&[ONE, end].concat());
    }
    let hh = right(ONE);
    for end in
        [format!("F> {hh:02X}   \r"), format!("f> {hh:02x}\r\n"), format!("F> {hh:02x} \r\n")]
    {
        let mut called = End::called(&empty());
        called.hears(&[ONE, end.as_bytes()].concat());
        called.says(b"FS +\r");
    }
}

/// "13 wrong proposal checksum, tested after 5 and 6 and before any answer is
/// formed."
#[test]
fn r13_after_5_and_6() {
    for checksum in 0..=255 {
        End::called(&empty()).refuses(&ended(b"", checksum), PROPOSAL_COUNT);
        End::called(&empty()).refuses(&ended(b"; hello\r\n", checksum), PROPOSAL_COUNT);
    }
    let hh = right(ONE);
    for form in ["F>{}", "F>  {}", "F> {}0", "F> 0{}", "F> {} 0", "F> {};", "F {}", "F> $"] {
        let line = form.replace("{}", &format!("{hh:02X}")) + "\r";
        End::called(&empty()).refuses(line.as_bytes(), LINE_NOT_ALLOWED);
        End::called(&empty()).refuses(&[ONE, line.as_bytes()].concat(), LINE_NOT_ALLOWED);
    }
    for form in ["F> 0G\r", "F> 1\r", "F> 123\r", "F> 0x\r"] {
        End::called(&empty()).refuses(form.as_bytes(), LINE_NOT_ALLOWED);
        End::called(&empty()).refuses(&[ONE, form.as_bytes()].concat(), LINE_NOT_ALLOWED);
    }
    // A sixth proposal is refused at its own CR, whatever checksum would follow.
    let five: Vec<u8> = ONE.repeat(5);
    End::called(&empty()).refuses(&[&five[..], ONE].concat(), PROPOSAL_COUNT);
    End::called(&empty()).refuses(&ended(&five, right(&five) ^ 1), WRONG_BLOCK_SUM);
}

/// Elsewhere `F> HH` is no end of a block.
#[test]
fn the_form_is_a_turn_line_and_nothing_else() {
    End::open(CALLER, &empty()).refuses(b"F> 12\r", NOT_SID);
    let mut end = End::open(CALLER, &plain_table(&[5]));
    end.hears(b"[TST-1-F$]\rF> 12\r");
    end.says(b"");
    end.hears(b">\r");
    end.says(&[b"[NOD-1-B1FH$]\r", &proposals(&[(1, 5)])[..]].concat());
    end.refuses(b"F> 12\r", LINE_NOT_ALLOWED);
}

/// "A turn with a wrong checksum is no valid turn": no record becomes forwarded and
/// no answer is given; with the right one both come.
#[test]
fn a_wrong_checksum_marks_nothing() {
    let sent = || {
        let mut end = End::caller(&plain_table(&[5, 5]));
        end.say();
        end.hears(b"FS ++\r");
        end.says(&transfers(&[1, 2]));
        end
    };
    let mut end = sent();
    end.refuses(&ended(ONE, right(ONE).wrapping_add(1)), WRONG_BLOCK_SUM);
    assert_eq!(end.states(), [Waiting; 2]);
    let mut end = sent();
    let (cr, line) = ended(ONE, right(ONE)).split_last().map(|(cr, l)| (*cr, l.to_vec())).unwrap();
    end.hears(&line);
    assert_eq!(end.states(), [Waiting; 2]);
    end.hears(&[cr]);
    assert_eq!(end.states(), [Forwarded; 2]);
    end.says(b"FS +\r");
    // The sum itself in place of what makes it 0.
    sent().refuses(&ended(ONE, right(ONE).wrapping_neg()), WRONG_BLOCK_SUM);
}

/// One wrong letter of a BID: what the request is about.
#[test]
fn one_changed_letter_of_a_bid() {
    let mut line = ONE.to_vec();
    line[17] = b'7';
    End::called(&empty()).refuses(&ended(&line, right(ONE)), WRONG_BLOCK_SUM);
}

/// Each turn begins a new sum.
#[test]
fn each_turn_has_its_own_sum() {
    let mut end = End::called(&empty());
    end.hears(&ended(ONE, right(ONE)));
    end.says(b"FS +\r");
    end.hears(b"T\rtext\x1A\r");
    end.says(b"FF\r");
    let mut both = end.clone();
    end.hears(&ended(TWO, right(TWO)));
    end.says(b"FS +\r");
    both.refuses(&ended(TWO, right(&[ONE, TWO].concat())), WRONG_BLOCK_SUM);
    // A bare block between doesn't count either.
    let mut end = End::called(&empty());
    end.hears(&[ONE, b"F>\r"].concat());
    end.says(b"FS +\r");
    end.hears(b"T\rtext\x1A\r");
    end.says(b"FF\r");
    end.hears(&ended(TWO, right(TWO)));
}

/// A real LinFBB's blocks, with the checksums that it sent (tests/peers/captures).
#[test]
fn linfbb_s_own_checksums() {
    let mut end = End::called(&empty());
    end.hears(
        b"FB P F0AAA N0DE.TST.FRA.EU N0DE 303_F0SRC 20\r\nFB B F0BBB WW TEST 304_F0SRC 20\r\nF> F0\r",
    );
    end.says(b"FS ++\r");
    let mut end = End::called_framed(&empty());
    end.hears(b"FA P F0AAA N0DE.TST.FRA.EU N0DE 205_F0SRC 20\rF> 67\r");
    end.says(b"FS +\r");
    let mut end = End::called_framed(&empty());
    end.refuses(b"FA P F0AAA F0FBB F0SYS 142_F0SRC 20\rF> 00\r", WRONG_BLOCK_SUM);
}
