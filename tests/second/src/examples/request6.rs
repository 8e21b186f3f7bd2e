//! Request Q-6's own sessions: a partner's FS line at level 1, and the same line at
//! level 0.

use super::{both_roles, partner, us, Example};
use crate::host::Letter;
use crate::memory::State::{self, Declined, Forwarded, Waiting};
use crate::refusal::BAD_ANSWER;
use crate::sid::Mode;

pub(super) fn all() -> Vec<Example> {
    let taken = vec![
        whole("Q-6, letters", "FS YhNrL\r", [Forwarded, Forwarded, Declined, Declined, Waiting]),
        whole(
            "Q-6, 002's line",
            "FS YLA3350RH\r",
            [Forwarded, Waiting, Waiting, Declined, Forwarded],
        ),
        whole(
            "Q-6, numbers",
            "fs !0a000000A1!999999e\r\n",
            [Forwarded, Forwarded, Waiting, Waiting, Waiting],
        ),
        whole(
            "Q-6, 01's signs",
            "FS +-=+=  \r",
            [Forwarded, Declined, Waiting, Forwarded, Waiting],
        ),
    ];
    let refused = [
        ("Q-6, a seventh digit", "[TST-1-B1F$]\r", "FS ++++A0000000\r"),
        ("Q-6, no digit", "[TST-1-B1F$]\r", "FS ++++A\r"),
        ("Q-6, no digit amid", "[TST-1-B1F$]\r", "FS !+++++\r"),
        ("Q-6, a digit behind a sign", "[TST-1-B1F$]\r", "FS Y0++++\r"),
        ("Q-6, a sign too few", "[TST-1-B1F$]\r", "FS YYYY1\r"),
        ("Q-6, level 0", "[TST-1-BF$]\r", "FS Y++++\r"),
        ("Q-6, level 0 with its digit", "[TST-1-B0F1$]\r", "FS ++++A0\r"),
    ];
    let refused =
        refused.map(|(name, sid, line)| asked(name, sid, line).refused(BAD_ANSWER)).to_vec();
    both_roles([taken, refused, vec![higher(), without_b()]].concat())
}

/// Our five records, packed, with titles `T1` on.
fn ours() -> Vec<Letter> {
    let letter = |place: usize| {
        let line = format!("FA P US THEM YOU {place}_US 2");
        Letter::new(Mode::Framed, line.as_bytes(), format!("T{place}").as_bytes(), b"AB")
    };
    (1..=5).map(letter).collect()
}

const PROPOSALS: &str =
    "FA P US THEM YOU 1_US 2\rFA P US THEM YOU 2_US 2\rFA P US THEM YOU 3_US 2\r\
    FA P US THEM YOU 4_US 2\rFA P US THEM YOU 5_US 2\rF>\r";

/// A partner of this SID answers our block with this line.
fn asked(name: &'static str, sid: &str, line: &str) -> Example {
    let script = vec![
        partner([sid, ">\r"].concat()),
        us(["[NOD-1-B1FH$]\r", PROPOSALS].concat()),
        partner(line),
    ];
    Example::new(name, true, script).letters(ours(), &[Waiting; 5])
}

/// The records that are forwarded go out, and FF and FQ end it.
fn finished(example: Example, states: [State; 5]) -> Example {
    let sent = (1..).zip(states).filter(|&(_, state)| state == Forwarded);
    // 0x41 + 0x42 and 0x7D make 256.
    let transfers = sent.flat_map(|(place, _): (usize, State)| {
        let heading = format!("\x01\x05T{place}\x000\x00");
        [heading.as_bytes(), b"\x02\x02AB\x04\x7D"].concat()
    });
    let transfers: Vec<u8> = transfers.collect();
    let more = [us(transfers), partner("FF\r"), us("FQ\r")];
    let script = [&example.script[..], &more].concat();
    Example { script, states: states.to_vec(), ..example }
}

fn whole(name: &'static str, line: &str, states: [State; 5]) -> Example {
    finished(asked(name, "[TST-1-AB1F$]\r", line), states)
}

/// B2 and above: ours is the lower.
fn higher() -> Example {
    let states = [Forwarded, Waiting, Waiting, Declined, Forwarded];
    finished(asked("Q-6, level 9", "[TST-1-fb9$]\r", "FS YLA3350RH\r"), states)
}

/// Without B there is no level but 0, whatever the other letters have.
fn without_b() -> Example {
    let line = b"FB P US THEM YOU 1_US 2";
    let script = vec![
        partner("[TST-1-F1H1$]\r>\r"),
        us([b"[NOD-1-B1FH$]\r", &line[..], b"\rF>\r"].concat()),
        partner("FS Y\r"),
    ];
    let letter = Letter::new(Mode::Plain, line, b"HI", b"AB");
    Example::new("Q-6, without B", true, script)
        .letters(vec![letter], &[Waiting])
        .refused(BAD_ANSWER)
}
