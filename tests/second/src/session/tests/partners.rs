//! "Eight partners, one table."

use super::end::{packed_table, plain_table, proposals, state_at, transfers, End, CALLED};
use crate::host::Buffers;
use crate::memory::State::{self, Declined, Forwarded, Waiting};
use crate::memory::PARTNERS;

/// Three records; the first waits for partner 3 alone, the second for partner 5 alone,
/// the third for everybody.
fn three() -> Buffers {
    let mut buffers = plain_table(&[1, 1, 1]);
    for partner in 0..PARTNERS as u8 {
        buffers.table[state_at(0, partner)] = if partner == 3 { 0 } else { 2 };
        buffers.table[state_at(1, partner)] = if partner == 5 { 0 } else { 1 };
    }
    buffers
}

fn called_by(partner: u8, buffers: &Buffers) -> End {
    let mut end = End::with(partner, CALLED, buffers);
    end.say();
    end.hears(b"[TST-1-F$]\r");
    end
}

fn columns(end: &End) -> [Vec<State>; PARTNERS] {
    std::array::from_fn(|partner| end.column(partner))
}

#[test]
fn what_waits_for_the_partner_is_proposed() {
    for partner in 0..PARTNERS as u8 {
        let mut end = called_by(partner, &three());
        end.hears(b"FF\r");
        end.says(&match partner {
            3 => proposals(&[(1, 1), (3, 1)]),
            5 => proposals(&[(2, 1), (3, 1)]),
            _ => proposals(&[(3, 1)]),
        });
    }
}

/// "the other seven columns come out of any session unaltered"
#[test]
fn marks_fall_in_the_partners_column() {
    for partner in 0..PARTNERS {
        let mut end = called_by(partner as u8, &plain_table(&[1, 1, 1]));
        let mut expected = columns(&end);
        end.hears(b"FF\r");
        end.say();
        end.hears(b"FS -+=\r");
        end.says(&transfers(&[2]));
        end.hears(b"FF\r");
        expected[partner] = vec![Declined, Forwarded, Waiting];
        assert_eq!(columns(&end), expected, "{partner}");
    }
}

/// "Our answers still depend on the BIDs of all records, so partner 3 can learn of a
/// bulletin meant for partner 5."
#[test]
fn answers_depend_on_all_records() {
    for partner in 0..PARTNERS as u8 {
        let mut end = called_by(partner, &three());
        end.hears(b"FB B THEM US ME 1_us 5\rFB B THEM US ME 2_US 5\rFB B THEM US ME 4_US 5\rF>\r");
        let said = end.say();
        assert!(said.starts_with(b"FS --+\r"), "{}", said.escape_ascii());
    }
}

/// The table that one partner's session leaves is the next one's.
#[test]
fn one_partner_after_another() {
    let mut buffers = packed_table(&[1, 1]);
    for partner in 0..PARTNERS as u8 {
        let mut end = End::with(partner, CALLED, &buffers);
        end.say();
        end.hears(b"[TST-1-BF$]\rFF\r");
        end.say();
        end.hears(b"FS -=\r");
        let table = &end.memory.table;
        buffers.table = table.iter().flat_map(crate::layout::write_record).collect();
        for (place, column) in columns(&end).into_iter().enumerate() {
            let first = if place <= usize::from(partner) { Declined } else { Waiting };
            assert_eq!(column, [first, Waiting]);
        }
    }
}
