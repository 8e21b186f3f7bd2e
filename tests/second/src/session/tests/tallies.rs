//! "Tally the waiting mail as we go."

use super::end::{packed_table, plain_table, proposals, state_at, transfers, End, PARTNER};
use crate::examples::request3::{self, Counted, Step};
use crate::examples::Said;
use crate::layout;
use crate::log::Sheet;
use crate::refusal::BYTES_WAIT;
use crate::tally::Tally;

/// Plays a session in portions of so many bytes; the numbers stand at each portion's end.
fn play(counted: &Counted, portion: usize) {
    let name = counted.name;
    let mut end = End::open(counted.role(), &counted.buffers());
    assert_eq!(end.tally(), counted.opened, "{name}");
    for Step { said, answer, tally } in &counted.steps {
        let mut answered = 0;
        match said {
            Said::Us(bytes) => {
                for part in bytes.chunks(portion) {
                    assert_eq!(end.say_up_to(part.len()), part, "{name}");
                }
            }
            Said::Partner(bytes) => {
                for part in bytes.chunks(portion) {
                    answered = end.hear(part).answer;
                }
            }
        }
        assert_eq!((answered, end.tally()), (*answer, *tally), "{name}, {said:?}");
    }
    let last = end.tally();
    end.say();
    end.hear(b"FF\r");
    if end.session.is_over() {
        assert_eq!(end.tally(), last, "{name}");
    }
}

#[test]
fn numbers_counted_by_hand() {
    for counted in request3::all() {
        for portion in [1, 2, 7, 100_000] {
            play(&counted, portion);
        }
    }
}

/// Before the last byte of a portion nothing counts that the portion's end counts.
#[test]
fn nothing_counts_before_its_byte() {
    let sheets = |end: &End| end.tally().sheet;
    let mut end = End::called(&plain_table(&[1, 2]));
    for byte in b"FF" {
        end.hears(&[*byte]);
        assert_eq!(sheets(&end), Sheet::default());
    }
    end.hears(b"\r");
    let asked = Sheet { proposed: 2, unsettled: 2, ..Sheet::default() };
    for _ in proposals(&[(1, 1), (2, 2)]) {
        assert_eq!(sheets(&end), asked);
        end.say_up_to(1);
    }
    for byte in b"FS +-" {
        assert_eq!(sheets(&end), asked);
        end.hears(&[*byte]);
    }
    end.hears(b"\r");
    let answered = Sheet { declined: 1, unsettled: 1, ..asked };
    for _ in transfers(&[1]) {
        assert_eq!(sheets(&end), answered);
        end.say_up_to(1);
    }
    for byte in b"FB P THEM US ME 1_THEM 5\rF>" {
        assert_eq!(sheets(&end), answered);
        end.hears(&[*byte]);
    }
    end.hears(b"\r");
    assert_eq!(sheets(&end), Sheet { forwarded: 1, unsettled: 0, ..answered });
}

/// "All numbers of Q-3 are for the partner of the session."
#[test]
fn the_partners_column_alone() {
    let mut buffers = plain_table(&[1, 20, 300]);
    for partner in 0..8 {
        buffers.table[state_at(0, partner)] = if partner == PARTNER { 0 } else { 1 };
        buffers.table[state_at(1, partner)] = if partner == PARTNER { 2 } else { 0 };
    }
    let mut end = End::called(&buffers);
    assert_eq!((end.tally().waiting, end.tally().sizes), (2, 301));
    end.hears(b"FF\r");
    assert_eq!(end.tally().sheet.proposed, 2);
    let other = End::with(0, super::end::CALLED, &buffers);
    assert_eq!((other.tally().waiting, other.tally().sizes), (2, 320));
}

/// "how many records wait and the sum of their announced sizes": 64 of 999,999 at most.
#[test]
fn the_greatest_sum() {
    let end = End::called(&packed_table(&[999_999; 64]));
    assert_eq!((end.tally().waiting, end.tally().sizes), (64, 63_999_936));
}

/// "all 0 when open accepts", on the table that the last session left.
#[test]
fn a_new_open_counts_anew() {
    let mut buffers = plain_table(&[1, 20, 300]);
    let mut end = End::called(&buffers);
    end.hears(b"FF\r");
    end.say();
    end.hears(b"FS -=+\r");
    end.refuses(b"F", BYTES_WAIT);
    buffers.table = end.memory.table.iter().flat_map(layout::write_record).collect();
    let end = End::called(&buffers);
    assert_eq!(end.tally(), Tally { waiting: 2, sizes: 320, sheet: Sheet::default() });
}
