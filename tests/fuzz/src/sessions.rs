//! The second kind of run: random sessions with a partner that mostly speaks the
//! protocol, in random portions, on both implementations.

use crate::lent::Resize;
use crate::pair::{Pair, Second};
use crate::partner::Partner;
use crate::report::Checked;
use crate::tables;
use crate::tally::Tally;
use crate::wrong;
use inputs::random::Random;
use second::memory::PARTNERS;
use second::places;
use second::refusal;
use second::session::{Phase, Reply};

/// How much longer or shorter a buffer is lent: by a byte, an entry of each kind,
/// all of session memory, or as many bytes as its margin has.
const RESIZES: [isize; 8] = [
    -1,
    1,
    -(places::KNOWN as isize),
    places::KNOWN as isize,
    -(places::RECORD as isize),
    -(places::ENTRY as isize),
    -(places::SESSION as isize),
    16,
];

/// How many bytes go in one call.
#[derive(Clone, Copy, Debug)]
enum Pace {
    One,
    Few,
    Some,
    All,
}

/// After so many calls a session goes on in large portions only.
const SLOW_CALLS: usize = 250;
/// And after so many it is dropped.
const CALLS: usize = 1_200;
/// A little more than the bytes of a line that says why.
const REASON: usize = 22;
/// "Once in so many" for what doesn't come at all.
const NEVER: usize = usize::MAX;

/// One session in the making.
pub struct Driver<'a> {
    random: &'a mut Random,
    tally: &'a mut Tally,
    pair: Pair,
    partner: Partner,
    pace: Pace,
    /// What the partner has said and the link has not brought yet.
    queue: Vec<u8>,
    /// Demand 3 is checked after every call, not only at the end.
    every_call: bool,
    /// One unit in so many is wrong.
    damage: usize,
    /// One byte in so many comes early, while bytes of ours wait.
    early: usize,
    /// So many bytes of either side the link still carries, then it drops.
    left: usize,
    /// The refusal of a receive, or 0.
    refusal: u8,
}

/// Runs one random session, at times a second one on the same memory, for whomever; and
/// at times one for each partner, one after another.
pub fn run(random: &mut Random, tally: &mut Tally) -> Checked {
    let mut driver = Driver::new(random, tally);
    if driver.random.once_in(20) {
        driver.idle()?;
    }
    if driver.random.once_in(16) {
        let first = driver.random.below(PARTNERS);
        for number in first..first + PARTNERS {
            driver.session(Some((number % PARTNERS) as u8))?;
        }
        return Ok(());
    }
    while driver.session(None)? && driver.random.once_in(4) {}
    Ok(())
}

impl<'a> Driver<'a> {
    pub fn new(random: &'a mut Random, tally: &'a mut Tally) -> Driver<'a> {
        let host = tables::buffers(random);
        let pair = Pair::new(random, &host);
        let partner = Partner::new(random, &host);
        let pace = random.pick(&[Pace::One, Pace::Few, Pace::Some, Pace::Some, Pace::All]);
        let every_call = random.once_in(32);
        let (damage, early) = match partner.is_calm() {
            true => (NEVER, NEVER),
            false => (random.pick(&[20, 60, 60]), 60),
        };
        let (queue, left, refusal) = (Vec::new(), usize::MAX, 0);
        Driver {
            random,
            tally,
            pair,
            partner,
            pace,
            queue,
            every_call,
            damage,
            early,
            left,
            refusal,
        }
    }

    /// How far a session goes before its memory changes.
    pub fn steps(&mut self) -> usize {
        self.random.below(60)
    }

    pub fn into_pair(self) -> Pair {
        self.pair
    }

    /// One session for this partner, or for anybody, with another station than before.
    /// False if it is refused.
    fn session(&mut self, partner: Option<u8>) -> Checked<bool> {
        if self.second().is_some() {
            self.partner = self.partner.another(self.random);
            self.queue.clear();
        }
        if !self.open_for(partner)? {
            self.idle()?;
            return Ok(false);
        }
        while self.step()? {}
        self.end()?;
        Ok(true)
    }

    pub fn open(&mut self) -> Checked<bool> {
        self.open_for(None)
    }

    /// A partner, at times one that there isn't.
    fn anybody(&mut self) -> u8 {
        match self.random.below(32) {
            0 => self.random.pick(&[PARTNERS, PARTNERS + 1, 2 * PARTNERS, 255]) as u8,
            _ => self.random.below(PARTNERS) as u8,
        }
    }

    /// Opens in either role, at times in one that isn't any.
    fn open_for(&mut self, partner: Option<u8>) -> Checked<bool> {
        let role = match self.random.below(40) {
            0 => self.random.within(2, 255) as u8,
            number => (number % 2) as u8,
        };
        let partner = match partner {
            Some(partner) => partner,
            None => self.anybody(),
        };
        let reply = self.pair.open(role, partner)?;
        self.tally.opened(reply);
        self.tally.rivals(partner, &self.pair.lent());
        self.tally.sessions += 1;
        self.left = self.length();
        Ok(reply.answer == refusal::NONE)
    }

    /// How many bytes the link carries before it drops, inside whatever is under
    /// way then; it holds in two sessions of three.
    fn length(&mut self) -> usize {
        let most = self.random.pick(&[40, 300, 3_000, 20_000]);
        match self.random.once_in(3) {
            true => self.random.below(most),
            false => usize::MAX,
        }
    }

    fn second(&self) -> Option<&Second> {
        self.pair.second()
    }

    /// One call or a few. False once the session is over and has said why, or the link
    /// drops.
    pub fn step(&mut self) -> Checked<bool> {
        if self.random.once_in(25) {
            self.noise()?;
        }
        if self.random.once_in(100) {
            let number = self.random.byte();
            self.pair.relevel(number);
        }
        let second = match self.second() {
            Some(second) => second,
            None => return Ok(false),
        };
        let (over, waiting) = (second.session.is_over(), second.session.waiting() > 0);
        if (over && !waiting) || self.pair.calls() > CALLS || self.left == 0 {
            return Ok(false);
        }
        if over {
            return self.part().map(|()| true);
        }
        let lf = self.queue.first() == Some(&b'\n');
        let early = self.random.once_in(self.early);
        if waiting && !early && !(lf && self.random.once_in(2)) {
            self.give()?;
        } else if !self.queue.is_empty() {
            self.deliver()?;
        } else {
            self.say();
        }
        if self.every_call {
            self.pair.demand_3()?;
        }
        Ok(true)
    }

    /// Our line that says why is given; at times more bytes arrive, and change nothing.
    fn part(&mut self) -> Checked {
        if !self.random.once_in(4) {
            return self.give();
        }
        let late = match self.random.below(4) {
            0 => Vec::new(),
            1 => b"\n".to_vec(),
            2 => b"*** Protocol error\r".to_vec(),
            _ => self.queue.clone(),
        };
        self.tally.late += 1;
        self.receive(&late, None)
    }

    /// The partner says its next unit, at times a wrong one.
    fn say(&mut self) {
        let second = match self.pair.second() {
            Some(second) => second,
            None => return,
        };
        let mut unit = self.partner.say(self.random, &second.session, &second.memory);
        if self.random.once_in(self.damage) {
            unit = wrong::unit(self.random, unit);
        }
        self.queue.extend(unit);
    }

    /// So many bytes at once.
    fn portion(&mut self) -> usize {
        let slow = self.pair.calls() < SLOW_CALLS;
        match self.pace {
            Pace::One if slow => 1,
            Pace::Few if slow => self.random.within(1, 8),
            Pace::Some if slow => self.random.within(1, 300),
            _ => usize::MAX,
        }
    }

    /// The link brings a portion of what the partner said.
    fn deliver(&mut self) -> Checked {
        let count = self.portion().min(self.queue.len()).min(self.left);
        let portion: Vec<u8> = self.queue.drain(..count).collect();
        self.receive(&portion, None)
    }

    fn receive(&mut self, bytes: &[u8], resize: Option<Resize>) -> Checked {
        let reply = self.pair.receive(bytes, resize)?;
        self.tally.received(reply);
        self.left = self.left.saturating_sub(reply.count);
        if reply.refuses_a_byte() {
            self.refusal = reply.answer;
            if self.random.once_in(8) {
                // The link drops inside the line that says why.
                self.left = self.left.min(self.random.below(REASON));
            }
        }
        Ok(())
    }

    /// The link takes a portion of what waits, from any place of a buffer.
    fn give(&mut self) -> Checked {
        let session = self.second().map(|second| &second.session);
        let waiting = session.map_or(0, |session| session.waiting());
        let quits = session.map_or(false, |session| matches!(session.phase(), Phase::Quit));
        if quits && self.random.once_in(50) {
            // "Our FQ ends it when give has handed out its CR."
            self.left = self.random.below(3);
        }
        let count = self.portion().min(waiting + self.random.below(20)).min(self.left);
        let place = if self.random.once_in(2) { 0 } else { self.random.below(20) };
        self.give_into(count + place, place, None)
    }

    fn give_into(&mut self, room: usize, place: usize, resize: Option<Resize>) -> Checked {
        let reply = self.pair.give(self.random, (room, place), resize)?;
        self.tally.gave(reply);
        self.left = self.left.saturating_sub(reply.count);
        Ok(())
    }

    /// Calls that change nothing: no bytes, no room, other sizes, a refused open.
    fn noise(&mut self) -> Checked {
        match self.random.below(6) {
            0 => self.receive(b"", None),
            1 => self.give_into(0, 0, None),
            2 => {
                let room = self.random.below(4);
                let place = self.random.pick(&[room, room + 1, usize::MAX, usize::MAX - 1]);
                self.give_into(room, place, None)
            }
            3 => {
                let (role, partner) =
                    self.random.pick(&[(2, 0), (3, 7), (255, 8), (0, 8), (1, 255)]);
                let reply: Reply = self.pair.open(role, partner)?;
                self.tally.opened(reply);
                Ok(())
            }
            4 => {
                let resize = self.resize();
                let length = self.random.below(4);
                self.receive(&b"FF\r\n"[..length], Some(resize))
            }
            _ => {
                let resize = self.resize();
                let room = self.random.below(20);
                self.give_into(room, 0, Some(resize))
            }
        }
    }

    fn resize(&mut self) -> Resize {
        let by = self.random.pick(&RESIZES);
        Resize { buffer: self.random.below(8), by }
    }

    /// Calls on memory that open never accepted.
    fn idle(&mut self) -> Checked {
        self.receive(b"[TST-1-F$]\r", None)?;
        self.give_into(30, 0, None)?;
        self.receive(b"", None)
    }

    /// What follows the end of a session or a drop: demand 3, and, if it is over,
    /// calls that find it so.
    pub fn end(&mut self) -> Checked {
        self.pair.demand_3()?;
        let over = self.second().map_or(false, |second| second.session.is_over());
        self.tally.ended(&self.pair, self.refusal);
        self.tally.respelt(self.partner.respelt());
        self.refusal = 0;
        if over && self.random.once_in(2) {
            self.receive(b"", None)?;
            self.receive(b"\nFF\r", None)?;
            self.give_into(40, 3, None)?;
            self.noise()?;
            self.pair.demand_3()?;
        }
        Ok(())
    }
}
