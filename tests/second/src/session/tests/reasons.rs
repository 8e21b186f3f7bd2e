//! Request Q-1: "Say why before hanging up."

use super::end::{packed_table, plain_table, End, CALLED, CALLER};
use crate::refusal::{BYTES_WAIT, LINE_NOT_ALLOWED};
use crate::session::Reply;

/// "one line and CR": in any rooms and at any place of a buffer, and whatever arrives
/// between two gives gets 12.
#[test]
fn in_any_rooms() {
    for room in 1..=20 {
        let mut end = End::called(&plain_table(&[]));
        assert_eq!(end.hear(b"hello\r\n"), Reply { answer: LINE_NOT_ALLOWED, place: 0, count: 6 });
        let mut said = Vec::new();
        while said.len() < 19 {
            let part = end.say_up_to(room);
            assert_eq!(part.len(), room.min(19 - said.len()));
            said.extend(part);
            end.is_deaf();
        }
        assert_eq!(said, b"*** Protocol error\r");
        end.says(b"");
    }
}

/// Without room nothing of it is lost.
#[test]
fn no_room_takes_nothing() {
    let mut end = End::called(&plain_table(&[]));
    end.hear(b"hello\r");
    for place in [0, 1, 7] {
        let reply = end.session.give(&end.memory, &mut [0], place.max(1));
        assert_eq!(reply, Reply::ok(0));
    }
    end.says(b"*** Protocol error\r");
}

/// "01's silence after an end holds after an end with 0 or 11": the partner's FQ, our
/// own, and a byte while bytes wait.
#[test]
fn silence_after_other_ends() {
    let mut end = End::caller(&plain_table(&[]));
    end.say();
    end.hears(b"FQ\r");
    end.is_deaf();
    end.says(b"");
    let mut end = End::called(&plain_table(&[]));
    end.hears(b"FF\r");
    end.says(b"FQ\r");
    end.is_deaf();
    end.says(b"");
    let mut end = End::called(&packed_table(&[]));
    end.hears(b"FF\r");
    end.refuses(b"F", BYTES_WAIT);
    let mut end = End::called(&plain_table(&[5]));
    end.hears(b"FF\r");
    end.say();
    end.hears(b"FS +\r");
    assert_eq!(end.say_up_to(4), b"T1\rt");
    end.refuses(b"*", BYTES_WAIT);
}

/// The line belongs to the session that was refused.
#[test]
fn a_new_session_forgets_it() {
    let buffers = plain_table(&[]);
    for role in [CALLED, CALLER] {
        let mut end = End::open(role, &buffers);
        let greeting = end.say();
        end.hear(b"hello\r");
        end.say_up_to(5);
        let mut again = End::open(role, &buffers);
        assert_eq!(again.say(), greeting);
    }
}
