//! The third kind of run: somebody else writes into session memory, table and
//! inbox between calls. Every call must still answer, and do no harm.

use crate::form;
use crate::guarded::Guarded;
use crate::lent::{Memory, INBOX, SESSION, STORE, TABLE};
use crate::library;
use crate::report::{Call, Checked, History};
use crate::sessions::Driver;
use crate::tally::Tally;
use inputs::random::Random;
use inputs::{byte, damaged, fs_line, line, proposal_fields, short_turn_line, sid, spaced};
use second::layout::{read_tally, SESSION_FREE, SESSION_TALLY};
use second::log::Sheet;
use second::memory::PARTNERS;
use second::phase;
use second::places;
use second::proposal::BLOCK_LIMIT;
use second::refusal::{self, reason_after, ANSWERS};
use second::session::Reply;
use second::tally::Tally as Panel;
use std::fmt::{self, Display};
use std::ops::Range;

/// Two arrays of session memory: the records' flags, the partner's proposals.
const DEFERRED: Range<usize> = places::ARRAYS + places::DEFERRED..places::ARRAYS + places::HEADING;
const BLOCK: Range<usize> = places::ARRAYS + places::BLOCK..places::ARRAYS_END;

/// What these runs have seen.
#[derive(Debug, Default)]
pub struct Changed {
    pub sessions: u64,
    pub calls: u64,
    /// Calls that answered 1, by the item of the form test that says so.
    pub ones: [u64; form::ITEM_COUNT],
    /// Those of them on a partner that there isn't.
    pub no_partner: u64,
    /// Calls of receive that marked a record for another partner than open was told, by
    /// the number that somebody has put in its place.
    pub moved: u64,
    /// Calls of receive without bytes on memory that passes it.
    pub empty: u64,
    /// Calls of give that handed over bytes of a line that says why.
    pub reasons: u64,
    /// Calls of receive that changed the tally sheet, and that counted what waits anew, on
    /// memory that somebody has written.
    pub counted: [u64; 2],
    /// Calls of receive whose only byte was refused.
    pub refused: u64,
}

impl Changed {
    /// What a long enough run must have met and this one has not.
    pub fn never_met(&self) -> Vec<String> {
        let item = |(place, _): (usize, &u64)| format!("form test: item {}", place + 1);
        let items = self.ones.iter().enumerate().filter(|(_, times)| **times == 0).map(item);
        let empty = (self.empty == 0).then(|| "changed memory: receive without bytes".to_owned());
        let reasons =
            (self.reasons == 0).then(|| "changed memory: a line that says why".to_owned());
        let none = (self.no_partner == 0).then(|| "form test: no such partner".to_owned());
        let moved = (self.moved == 0).then(|| "changed memory: another column".to_owned());
        let counted =
            self.counted.contains(&0).then(|| "changed memory: numbers that count".to_owned());
        let refused = (self.refused == 0).then(|| "changed memory: a refused byte".to_owned());
        let others = [empty, reasons, none, moved, counted, refused];
        items.chain(others.into_iter().flatten()).collect()
    }
}

impl Display for Changed {
    fn fmt(&self, f: &mut fmt::Formatter<'_>) -> fmt::Result {
        let Changed {
            sessions,
            calls,
            ones: [mark, sizes, counts, messages, awaited, waits, reason],
            no_partner,
            moved,
            empty,
            reasons,
            counted: [sheets, again],
            refused,
        } = self;
        writeln!(f, "  {sessions} sessions, {calls} calls, {empty} of them receive without bytes")?;
        writeln!(f, "  {reasons} times give handed over bytes of a line that says why")?;
        write!(f, "  answered 1 by item 1: {mark}, 2: {sizes}, 3: {counts}, 4: {messages}, ")?;
        writeln!(f, "5: {awaited}, 6: {waits}, 7: {reason}")?;
        writeln!(f, "  on a partner that there isn't: {no_partner}; marks in a column that was moved to: {moved}")?;
        writeln!(f, "  tally sheets changed: {sheets}, what waits counted anew: {again}; single bytes refused: {refused}")
    }
}

/// The library alone, on memory that changes under it.
struct Alone<'a> {
    random: &'a mut Random,
    seen: &'a mut Changed,
    memory: Memory,
    /// As the last call left it that did not answer 1.
    good: Memory,
    history: History,
    /// The last call did not answer 1 and nobody has written since.
    intact: bool,
    /// Whom open was told.
    partner: usize,
    /// What the last intact call says of the next: receive must answer 12, give
    /// must give nothing.
    over: bool,
    empty: bool,
}

/// A session that starts well, and then memory changes.
pub fn run(random: &mut Random, tally: &mut Tally, seen: &mut Changed) -> Checked {
    let mut driver = Driver::new(random, tally);
    if !driver.open()? {
        return Ok(());
    }
    let steps = driver.steps();
    for _ in 0..steps {
        if !driver.step()? {
            break;
        }
    }
    seen.sessions += 1;
    let (memory, history) = driver.into_pair().into_lent();
    let good = memory.clone();
    let partner = form::partner(&memory);
    let mut alone = Alone {
        random,
        seen,
        memory,
        good,
        history,
        intact: true,
        partner,
        over: false,
        empty: false,
    };
    for _ in 0..alone.random.within(5, 30) {
        alone.step()?;
    }
    Ok(())
}

impl Alone<'_> {
    fn step(&mut self) -> Checked {
        self.mend();
        if !self.random.once_in(3) {
            for _ in 0..self.random.pick(&[1, 1, 1, 2, 5]) {
                self.write();
            }
        }
        match self.random.once_in(2) {
            true => self.receive(),
            false => self.give(),
        }
    }

    /// Takes back what made a call answer 1, mostly, so that others get further.
    fn mend(&mut self) {
        if self.intact {
            self.good = self.memory.clone();
        } else if !self.random.once_in(4) {
            self.memory = self.good.clone();
            self.history.begin(Call::Mend);
            self.intact = true;
        }
    }

    /// Writes a few bytes somewhere.
    fn write(&mut self) {
        let buffer = self.random.pick(&[SESSION, SESSION, SESSION, SESSION, TABLE, INBOX]);
        let length = self.memory.part(buffer).len();
        if length == 0 {
            return;
        }
        let (place, bytes) = match buffer {
            SESSION if !self.random.once_in(4) => self.session_field(),
            _ => (self.random.below(length), vec![byte(self.random)]),
        };
        let end = length.min(place + bytes.len());
        self.memory.part_mut(buffer)[place..end].copy_from_slice(&bytes[..end - place]);
        self.history.begin(Call::Change { buffer, place, bytes });
        self.intact = false;
    }

    /// A number of session memory, near the limits that matter to it.
    fn session_field(&mut self) -> (usize, Vec<u8>) {
        let small = self.random.pick(&[0, 0, 1, 2, 3, 4, 5, 6, 7, 63, 64, 80, 81, 88, 255]);
        let large = self.random.pick(&[0, 1, 255, 256, 257, 65_535, 65_536, usize::MAX]);
        match self.random.below(18) {
            0 => {
                let at = self.random.pick(&[places::LINE_LENGTH, places::LEFT]);
                (at, large.to_le_bytes()[..2].to_vec())
            }
            1 => (places::BODY, large.to_le_bytes()[..4].to_vec()),
            2 => (self.random.pick(&[places::POS, places::USED]), large.to_le_bytes().to_vec()),
            3 => (self.within(DEFERRED), vec![small]),
            4 => (self.within(BLOCK), vec![byte(self.random)]),
            5 => (places::PHASE, vec![small]),
            6 => (
                places::SIGNS + self.random.within(1, BLOCK_LIMIT),
                vec![self.random.pick(b"+++-=")],
            ),
            7 => (places::POS, self.near(form::waiting(&self.memory).len()).to_vec()),
            8 => (places::BODY, self.near(form::room(&self.memory))[..4].to_vec()),
            9 => (places::BLOCK_SUM, vec![self.random.byte()]),
            10 => (places::LEVEL, vec![self.random.byte()]),
            11 => (places::PHASE, self.parting()),
            12 => (
                places::PARTNER,
                vec![self.random.pick(&[PARTNERS - 1, PARTNERS, PARTNERS + 1, 255]) as u8],
            ),
            13 => (places::PARTNER, vec![self.random.below(PARTNERS) as u8]),
            14 | 15 => {
                let number = self.random.pick(&[0, 1, 2, 254, 255, small]);
                (self.within(SESSION_TALLY), vec![number])
            }
            _ => (self.random.within(places::PHASE, places::SUM), vec![small]),
        }
    }

    /// A place of these.
    fn within(&mut self, places: Range<usize>) -> usize {
        self.random.within(places.start, places.end - 1)
    }

    /// All from what is awaited to what waits then: a session that is over, with
    /// something waiting, mostly one of the lines that say why.
    fn parting(&mut self) -> Vec<u8> {
        let over = self.random.pick(&[phase::OVER, phase::OVER, phase::OVER + 1, u8::MAX]);
        let lines = [phase::PIECE_PROTOCOL_ERROR, phase::PIECE_CHECKSUM_ERROR];
        let first =
            if self.random.once_in(4) { byte(self.random) } else { self.random.pick(&lines) };
        let then = if self.random.once_in(8) { byte(self.random) } else { phase::PIECE_NONE };
        vec![over, 0, 0, self.random.pick(&[0, 1]), first, then]
    }

    /// A number just below a limit, at it, or just above.
    fn near(&mut self, limit: usize) -> [u8; 8] {
        (limit + self.random.below(3)).saturating_sub(1).to_le_bytes()
    }

    /// Bytes of the kind that the library awaits, as its memory says.
    fn bytes(&mut self) -> Vec<u8> {
        let session = self.memory.part(SESSION);
        let (awaited, proposed) = (session[places::PHASE], session[places::OURS]);
        let framed = session[places::FRAMED] == 1;
        let random = &mut *self.random;
        let mut bytes = match awaited {
            phase::CALLED_SID | phase::CALLER_SID => sid(random),
            phase::PROMPT => b"welcome\r>".to_vec(),
            phase::TURN if random.once_in(2) => short_turn_line(random),
            phase::TURN => {
                let fields = proposal_fields(random);
                let end = random.pick(&[&b"\rF>"[..], b"\rF> 5A"]);
                [spaced(random, &fields), end.to_vec()].concat()
            }
            phase::FS => fs_line(random, proposed.into()),
            phase::TRANSFER if framed => b"\x01\x05HI\x000\x00\x02\x02AB\x04\x7D".to_vec(),
            phase::TRANSFER => b"HI\rAB\x1A".to_vec(),
            _ => line(random),
        };
        bytes.push(b'\r');
        match random.below(6) {
            0 => damaged(random, bytes),
            1 => Vec::new(),
            2 => bytes[..random.below(bytes.len() + 1)].to_vec(),
            _ => bytes,
        }
    }

    fn receive(&mut self) -> Checked {
        let bytes = self.bytes();
        self.history.begin(Call::Receive { bytes: bytes.clone(), resize: None });
        let (before, failed) = (self.memory.clone(), form::failed(&self.memory));
        let reply = library::receive(self.memory.lend(None), &bytes);
        let may_change = [SESSION, TABLE, INBOX, STORE];
        self.check(reply, failed, &before, &may_change, bytes.len())?;
        if self.intact && self.over && reply.answer != refusal::SESSION_ENDED {
            return self.differs("an ended session did not answer 12");
        }
        if reply.answer == refusal::SESSION_ENDED && reply.count != 0 {
            return self.differs("12 with a count");
        }
        if bytes.is_empty() && reply.refuses_a_byte() {
            return self.differs("no bytes were refused");
        }
        // "Receiving no bytes on a live session answers 0 and changes nothing."
        self.seen.empty += u64::from(bytes.is_empty() && reply.answer != refusal::BAD_MEMORY);
        if matches!(reply.answer, refusal::BAD_MEMORY | refusal::SESSION_ENDED) || bytes.is_empty()
        {
            self.unchanged(&before)?;
        }
        self.check_counted(reply, &before)?;
        self.intact = reply.answer != refusal::BAD_MEMORY;
        // "Receive consumes every byte lent to it, unless it answers 1 or 12 or the
        // session ends on the way".
        let cut_short = reply.answer == refusal::NONE && reply.count < bytes.len();
        self.over = reply.answer > refusal::BAD_MEMORY || cut_short;
        // After an end "give writes nothing", but for the line that says why.
        let rest = form::parting(&self.memory).unwrap_or_default();
        if reply.refuses_a_byte() && rest != reason_after(reply.answer) {
            return self.differs("not the line that says why");
        }
        self.empty = self.over && rest.is_empty();
        Ok(())
    }

    fn give(&mut self) -> Checked {
        let (room, place) = (self.random.below(300), self.random.below(20));
        self.history.begin(Call::Give { room, place, resize: None });
        let (before, failed) = (self.memory.clone(), form::failed(&self.memory));
        let mut buffer = Guarded::new(self.random, &vec![0xA5; room]);
        let mut expected = buffer.clone();
        let reply = library::give(self.memory.lend(None), buffer.part_mut(), place);
        self.check(reply, failed, &before, &[SESSION], room.saturating_sub(place))?;
        if reply.answer > refusal::BAD_MEMORY {
            return self.differs("give answered more than 1");
        }
        // Nothing given, nothing changed.
        if reply.answer == refusal::BAD_MEMORY || reply.count == 0 {
            self.unchanged(&before)?;
        }
        if self.intact && self.empty && reply.count > 0 {
            return self.differs("bytes given though none waited");
        }
        if tally_of(&self.memory) != tally_of(&before) {
            return self.differs("give changed the front panel's numbers");
        }
        let written = place.min(room)..place.min(room) + reply.count;
        expected.part_mut()[written.clone()].copy_from_slice(&buffer.part()[written.clone()]);
        if buffer != expected {
            return self.differs("give wrote outside what it counts");
        }
        // On a session that is over: the rest of the line that says why, or nothing.
        if let Some(rest) = form::parting(&before) {
            let fits = rest.len().min(room.saturating_sub(place));
            if buffer.part()[written.clone()] != rest[..fits] {
                return self.differs("not the rest of the line that says why");
            }
            self.seen.reasons += u64::from(fits > 0);
        }
        // "It writes as many waiting bytes as fit".
        self.empty = reply.answer == refusal::NONE && written.end < room && place < room;
        self.over &= self.intact;
        self.intact = reply.answer != refusal::BAD_MEMORY;
        Ok(())
    }

    /// What holds after any call.
    fn check(
        &mut self,
        reply: Reply,
        failed: Option<usize>,
        before: &Memory,
        may_change: &[usize],
        most: usize,
    ) -> Checked {
        self.history.end(reply);
        self.seen.calls += 1;
        self.check_reply(reply, failed, most)?;
        if let Some(item) = failed {
            self.seen.ones[item - 1] += 1;
            self.seen.no_partner += u64::from(item == 3 && form::partner(before) >= PARTNERS);
        }
        let marked = self.memory.part(TABLE) != before.part(TABLE);
        self.seen.moved += u64::from(marked && form::partner(before) != self.partner);
        self.check_memory(reply, before, may_change)
    }

    fn check_reply(&self, reply: Reply, failed: Option<usize>, most: usize) -> Checked {
        let one = reply.answer == refusal::BAD_MEMORY;
        let (place, most) = if one { (refusal::NO_PLACE, 0) } else { (0, most) };
        if usize::from(reply.answer) >= ANSWERS || reply.place != place || reply.count > most {
            return self.differs("no such reply");
        }
        if one && self.intact {
            return self.differs("1 on memory as the last call left it");
        }
        // "answer 1 [...] exactly if a lent size isn't the one open kept in session
        // memory or the lent memory fails a form test"
        if one != failed.is_some() {
            return self.differs(&format!("the form test fails at {failed:?}"));
        }
        Ok(())
    }

    /// Only what the call may write has changed; of the table, only states of the partner
    /// that session memory names, and of session memory no free byte.
    fn check_memory(&self, reply: Reply, before: &Memory, may_change: &[usize]) -> Checked {
        let mut expected = before.clone();
        for &buffer in may_change {
            let now = self.memory.part(buffer);
            let (skip, step) = match buffer {
                TABLE => (form::partner(before), places::RECORD),
                _ => (0, 1),
            };
            let bytes = expected.part_mut(buffer).iter_mut().zip(now);
            for (byte, now) in bytes.skip(skip).step_by(step) {
                *byte = *now;
            }
        }
        for free in SESSION_FREE {
            let bytes = &before.part(SESSION)[free.clone()];
            expected.part_mut(SESSION)[free].copy_from_slice(bytes);
        }
        if let Some(change) = self.memory.change(&expected) {
            return self.differs(&change);
        }
        // "What an accepted open leaves passes it, and so does what a receive or
        // give leaves that doesn't answer 1, on whatever memory".
        if reply.answer != refusal::BAD_MEMORY && form::failed(&self.memory).is_some() {
            return self.differs("the call left memory that fails the form test");
        }
        Ok(())
    }

    /// The front panel's numbers after a receive, whatever stood there: an event takes from
    /// one of the sheet what it gives another, modulo 256; where records were marked, what
    /// waits is counted anew, else it may stand; a refused byte changes none.
    fn check_counted(&mut self, reply: Reply, before: &Memory) -> Checked {
        let (now, then) = (tally_of(&self.memory), tally_of(before));
        if reply.count == 1 && reply.refuses_a_byte() {
            self.seen.refused += 1;
            if now != then {
                return self.differs("a refused byte changed the front panel's numbers");
            }
        }
        if rest_of(&now.sheet) != rest_of(&then.sheet) {
            return self.differs(&format!("the sheet was {then:?} and is {now:?}"));
        }
        let marked = self.memory.part(TABLE) != before.part(TABLE);
        let stands = !marked && (now.waiting, now.sizes) == (then.waiting, then.sizes);
        if !stands && (now.waiting, now.sizes) != form::waits(&self.memory) {
            return self.differs(&format!("what waits was {then:?} and is {now:?}"));
        }
        self.seen.counted[0] += u64::from(now.sheet != then.sheet);
        self.seen.counted[1] += u64::from(!stands);
        Ok(())
    }

    fn unchanged(&self, before: &Memory) -> Checked {
        match self.memory.change(before) {
            Some(change) => self.differs(&format!("nothing may change, but {change}")),
            None => Ok(()),
        }
    }

    fn differs<T>(&self, what: &str) -> Checked<T> {
        Err(self.history.difference(crate::describe::memory(&self.memory), what.into()))
    }
}

fn tally_of(memory: &Memory) -> Panel {
    read_tally(memory.part(SESSION))
}

/// Proposed less the sum of the other four, modulo 256: 0 on memory that nobody has written.
fn rest_of(sheet: &Sheet) -> usize {
    let Sheet { proposed, forwarded, declined, deferred, unsettled } = sheet;
    (4 * 256 + proposed - forwarded - declined - deferred - unsettled) % 256
}
