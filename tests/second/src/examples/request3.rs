//! Request Q-3's own sessions, with the seven numbers of the front panel after each portion,
//! counted by hand.

use super::{partner, us, Said, OUR_SID};
use crate::host::{Buffers, Letter};
use crate::log::Sheet;
use crate::refusal::{
    BAD_ANSWER, BAD_TRANSFER, BYTES_WAIT, LINE_NOT_ALLOWED, NOT_SID, WRONG_BLOCK_SUM,
};
use crate::sid::Mode;
use crate::tally::Tally;

/// What one side says in one portion, what receive answers to it, and the numbers then.
#[derive(Clone, Debug)]
pub struct Step {
    pub said: Said,
    pub answer: u8,
    pub tally: Tally,
}

/// A session, with the numbers that an accepted open leaves.
#[derive(Clone, Debug)]
pub struct Counted {
    pub name: &'static str,
    pub we_called: bool,
    pub letters: Vec<Letter>,
    pub opened: Tally,
    pub steps: Vec<Step>,
}

impl Counted {
    fn new(name: &'static str, we_called: bool, letters: Vec<Letter>, waits: Waits) -> Counted {
        let opened = tally(waits, [0; 5]);
        Counted { name, we_called, letters, opened, steps: Vec::new() }
    }

    fn step(mut self, said: Said, answer: u8, waits: Waits, sheet: [usize; 5]) -> Counted {
        self.steps.push(Step { said, answer, tally: tally(waits, sheet) });
        self
    }

    fn us(self, bytes: impl AsRef<[u8]>, waits: Waits, sheet: [usize; 5]) -> Counted {
        self.step(us(bytes), 0, waits, sheet)
    }

    fn partner(self, bytes: impl AsRef<[u8]>, waits: Waits, sheet: [usize; 5]) -> Counted {
        self.step(partner(bytes), 0, waits, sheet)
    }

    /// The last byte of these is refused: the numbers stay.
    fn refused(mut self, bytes: impl AsRef<[u8]>, answer: u8) -> Counted {
        let tally = self.steps.last().map_or(self.opened, |step| step.tally);
        self.steps.push(Step { said: partner(bytes), answer, tally });
        self
    }

    /// The role's number.
    pub fn role(&self) -> u8 {
        self.we_called.into()
    }

    pub fn buffers(&self) -> Buffers {
        let mut buffers = Buffers::new(8, 1_000);
        self.letters.iter().for_each(|letter| buffers.add(letter));
        buffers
    }
}

/// Records that wait, and the sum of their announced sizes.
type Waits = (usize, usize);

/// Proposed, forwarded, declined, deferred, not settled.
fn tally((waiting, sizes): Waits, sheet: [usize; 5]) -> Tally {
    let [proposed, forwarded, declined, deferred, unsettled] = sheet;
    Tally { waiting, sizes, sheet: Sheet { proposed, forwarded, declined, deferred, unsettled } }
}

const NONE: [usize; 5] = [0; 5];
const GREETING: &[u8] = b"[NOD-1-B1FH$]\r>\r";
const SID: &[u8] = b"[TST-1-F$]\r";
const FRAMED_SID: &[u8] = b"[TST-1-B1F$]\r";
/// A message of the partner's; its bytes don't sum to 0 modulo 256.
const THEIRS: &[u8] = b"FB P THEM US ME 1_THEM 2\r";
/// A copy of our first record.
const COPY: &[u8] = b"FB P THEM US ME 1_US 2\r";

/// Our records, BIDs `1_US` on, titles `T1` on, with these announced sizes.
fn letters(mode: Mode, sizes: &[usize]) -> Vec<Letter> {
    let command = if mode == Mode::Plain { "FB" } else { "FA" };
    let letter = |(place, size): (usize, &usize)| {
        let line = format!("{command} P US THEM YOU {place}_US {size}");
        Letter::new(mode, line.as_bytes(), format!("T{place}").as_bytes(), b"AB")
    };
    (1..).zip(sizes).map(letter).collect()
}

/// How we propose plain ones of them.
fn block(records: &[(usize, usize)]) -> Vec<u8> {
    let line = |(place, size): &(usize, usize)| format!("FB P US THEM YOU {place}_US {size}\r");
    [records.iter().map(line).collect::<String>().as_bytes(), b"F>\r"].concat()
}

/// How we send plain ones.
fn transfers(places: &[usize]) -> Vec<u8> {
    places.iter().flat_map(|place| format!("T{place}\rAB\x1A\r").into_bytes()).collect()
}

const ALL_WAIT: Waits = (3, 60);
const ASKED: [usize; 5] = [3, 0, 0, 0, 3];

fn three() -> Vec<Letter> {
    letters(Mode::Plain, &[10, 20, 30])
}

fn block_of_three() -> Vec<u8> {
    block(&[(1, 10), (2, 20), (3, 30)])
}

/// Three records are proposed to a caller.
fn proposed(name: &'static str) -> Counted {
    Counted::new(name, false, three(), ALL_WAIT)
        .us(GREETING, ALL_WAIT, NONE)
        .partner(SID, ALL_WAIT, NONE)
        .partner("\nFF", ALL_WAIT, NONE)
        .partner("\r", ALL_WAIT, ASKED)
}

/// And the link takes them.
fn asked(name: &'static str) -> Counted {
    proposed(name).partner("\n", ALL_WAIT, ASKED).us(block_of_three(), ALL_WAIT, ASKED)
}

const ANSWERED: [usize; 5] = [3, 0, 1, 1, 1];

/// One of them is declined, one accepted, one deferred.
fn answered(name: &'static str) -> Counted {
    asked(name).partner("FS -+=", ALL_WAIT, ASKED).partner("\r", (2, 50), ANSWERED)
}

/// The accepted one goes, and the partner has nothing.
fn settled(name: &'static str) -> Counted {
    answered(name).us(transfers(&[2]), (2, 50), ANSWERED).partner("FF", (2, 50), ANSWERED).partner(
        "\r",
        (1, 30),
        [3, 1, 1, 1, 0],
    )
}

/// All three are accepted and go.
fn sent(name: &'static str) -> Counted {
    asked(name)
        .partner("FS +++\r", ALL_WAIT, ASKED)
        .us(transfers(&[1, 2, 3]), ALL_WAIT, ASKED)
        .partner(THEIRS, ALL_WAIT, ASKED)
}

pub fn all() -> Vec<Counted> {
    [whole(), dropped(), refused(), ours()].concat()
}

fn whole() -> Vec<Counted> {
    let deferred = asked("all deferred")
        .partner("FS ===\r", ALL_WAIT, [3, 0, 0, 3, 0])
        .partner([COPY, b"F>\r"].concat(), ALL_WAIT, [3, 0, 0, 3, 0])
        .us("FS -\rFF\r", ALL_WAIT, [3, 0, 0, 3, 0])
        .partner("FQ\r", ALL_WAIT, [3, 0, 0, 3, 0]);
    vec![settled("each sign").us("FQ\r", (1, 30), [3, 1, 1, 1, 0]), deferred, level_1()]
}

/// "not settled are those proposed whose FS hasn't come, or which were accepted and aren't
/// forwarded yet", whether the link has taken them or not.
fn dropped() -> Vec<Counted> {
    let (half, block) = (block_of_three()[..9].to_vec(), block_of_three());
    let (most, transfer) = (transfers(&[2]).len() - 1, transfers(&[2]));
    let begun = asked("11, our transfers under way").partner("FS +++\r", ALL_WAIT, ASKED);
    vec![
        proposed("11, our turn waiting").refused("F", BYTES_WAIT),
        proposed("11, half our turn taken").us(half, ALL_WAIT, ASKED).refused("F", BYTES_WAIT),
        proposed("11, all but a byte taken")
            .us(&block[..block.len() - 1], ALL_WAIT, ASKED)
            .refused("F", BYTES_WAIT),
        answered("11, the transfer's last byte not taken")
            .us(&transfer[..most], (2, 50), ANSWERED)
            .refused("F", BYTES_WAIT),
        answered("11, nothing of the transfer taken").refused("F", BYTES_WAIT),
        begun.us(&transfers(&[1, 2, 3])[..9], ALL_WAIT, ASKED).refused("F", BYTES_WAIT),
        settled("11, our FQ waiting").refused("F", BYTES_WAIT),
        at_once("11, at the turn's next byte", "[TST-1-F$]\rFF\rF"),
        at_once("11, after the LF", "[TST-1-F$]\rFF\r\n\n"),
    ]
}

/// The refused byte follows in one portion what makes our turn wait.
fn at_once(name: &'static str, said: &str) -> Counted {
    let mut counted = Counted::new(name, false, three(), ALL_WAIT)
        .us(GREETING, ALL_WAIT, NONE)
        .refused(said, BYTES_WAIT);
    counted.steps[1].tally = tally(ALL_WAIT, ASKED);
    counted
}

/// "After a refusal the numbers stay at their last state."
fn refused() -> Vec<Counted> {
    let first_line = Counted::new("no SID", true, three(), ALL_WAIT).refused("hello\r", NOT_SID);
    let unsent = Counted::new("8 before our turn", false, three(), ALL_WAIT)
        .us(GREETING, ALL_WAIT, NONE)
        .partner([SID, THEIRS, b"F>\r"].concat(), ALL_WAIT, NONE)
        .us("FS +\r", ALL_WAIT, NONE)
        .refused("T\rAB\x1Ax", BAD_TRANSFER);
    vec![
        first_line,
        unsent,
        asked("7").refused("FS ++\r", BAD_ANSWER),
        asked("5 for an FS line").refused("FF\r", LINE_NOT_ALLOWED),
        sent("5 inside a block, after our transfers").refused("FF\r", LINE_NOT_ALLOWED),
        sent("FQ inside a block").refused("FQ\r", LINE_NOT_ALLOWED),
        sent("13 after our transfers").refused("F> 00\r", WRONG_BLOCK_SUM),
        sent("6 after our transfers").refused(THEIRS.repeat(5), 6),
        sent("2 after our transfers").refused("x".repeat(257), 2),
    ]
}

/// "Proposed counts at the received byte that our turn answers".
fn ours() -> Vec<Counted> {
    let caller = Counted::new("the prompt", true, three(), ALL_WAIT)
        .partner("[TST-1-F$]\rwelcome\r>", ALL_WAIT, NONE)
        .partner("\r", ALL_WAIT, ASKED)
        .us([OUR_SID, &block_of_three()[..]].concat(), ALL_WAIT, ASKED)
        .partner("FS ---\r", (0, 0), [3, 0, 3, 0, 0]);
    let nothing = Counted::new("our FF", true, letters(Mode::Framed, &[7]), (1, 7))
        .partner("[TST-1-F$]\r>\r", (1, 7), NONE)
        .us([OUR_SID, b"FF\r"].concat(), (1, 7), NONE)
        .partner("FQ\r", (1, 7), NONE);
    let transfer = Counted::new("the last owed transfer", false, three(), ALL_WAIT)
        .us(GREETING, ALL_WAIT, NONE)
        .partner([SID, THEIRS, b"FB P THEM US ME 2_THEM 2\rF>\r"].concat(), ALL_WAIT, NONE)
        .us("FS ++\r", ALL_WAIT, NONE)
        .partner("\nT\rAB\x1A\r\n", ALL_WAIT, NONE)
        .partner("T\rAB\x1A", ALL_WAIT, NONE)
        .partner("\r", ALL_WAIT, ASKED)
        .us(block_of_three(), ALL_WAIT, ASKED);
    vec![caller, nothing, transfer, framed_transfer(), forwarded_then_proposed()]
}

/// A framed transfer ends with its checksum. The plain record waits, and isn't proposed.
fn framed_transfer() -> Counted {
    let packed = Letter::new(Mode::Framed, b"FA P US THEM YOU 9_US 999999", b"T9", b"AB");
    let letters = [letters(Mode::Plain, &[7]), vec![packed]].concat();
    Counted::new("a framed transfer", false, letters, (2, 1_000_006))
        .us(GREETING, (2, 1_000_006), NONE)
        .partner([FRAMED_SID, b"FA P THEM US ME 1_THEM 2\rF>\r"].concat(), (2, 1_000_006), NONE)
        .us("FS +\r", (2, 1_000_006), NONE)
        .partner(b"\x01\x05HI\x000\x00\x02\x02AB\x04", (2, 1_000_006), NONE)
        .partner(b"\x7D", (2, 1_000_006), [1, 0, 0, 0, 1])
        .us("FA P US THEM YOU 9_US 999999\rF>\r", (2, 1_000_006), [1, 0, 0, 0, 1])
        .partner("FS n\r", (1, 7), [1, 0, 1, 0, 0])
}

/// Seven records: the CR of a block that we decline forwards the five that are sent and
/// proposes the other two.
fn forwarded_then_proposed() -> Counted {
    let first: Vec<(usize, usize)> = (1..=5).map(|place| (place, 1)).collect();
    Counted::new("forwarded and proposed", false, letters(Mode::Plain, &[1; 7]), (7, 7))
        .us(GREETING, (7, 7), NONE)
        .partner([SID, b"FF\r"].concat(), (7, 7), [5, 0, 0, 0, 5])
        .us(block(&first), (7, 7), [5, 0, 0, 0, 5])
        .partner("FS +++++\r", (7, 7), [5, 0, 0, 0, 5])
        .us(transfers(&[1, 2, 3, 4, 5]), (7, 7), [5, 0, 0, 0, 5])
        .partner([COPY, b"F>"].concat(), (7, 7), [5, 0, 0, 0, 5])
        .partner("\r", (2, 2), [7, 5, 0, 0, 2])
        .us([b"FS -\r", &block(&[(6, 1), (7, 1)])[..]].concat(), (2, 2), [7, 5, 0, 0, 2])
        .partner("FS =-\r", (1, 1), [7, 5, 1, 1, 0])
}

/// Q-6: R declines; E, L and a number over 0 defer; H and the number 0 accept.
fn level_1() -> Counted {
    let sizes = [1, 2, 4, 8, 16];
    let line = |(place, size): (usize, usize)| format!("FA P US THEM YOU {place}_US {size}\r");
    let block: String = (1..).zip(sizes).map(line).chain(["F>\r".to_owned()]).collect();
    let heading = |place: usize| format!("\x01\x05T{place}\x000\x00\x02\x02AB\x04");
    let transfer = |place| [heading(place).as_bytes(), b"\x7D"].concat();
    Counted::new("level 1", true, letters(Mode::Framed, &sizes), (5, 31))
        .partner([FRAMED_SID, b">\r"].concat(), (5, 31), [5, 0, 0, 0, 5])
        .us([OUR_SID, block.as_bytes()].concat(), (5, 31), [5, 0, 0, 0, 5])
        .partner("FS hRLA7!0\r", (4, 29), [5, 0, 1, 2, 2])
        .us([transfer(1), transfer(5)].concat(), (4, 29), [5, 0, 1, 2, 2])
        .partner("FF\r", (2, 12), [5, 2, 1, 2, 0])
        .us("FQ\r", (2, 12), [5, 2, 1, 2, 0])
}
