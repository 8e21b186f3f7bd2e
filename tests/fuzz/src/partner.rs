//! A partner that mostly speaks the protocol. It is told what the session awaits
//! and says the next whole unit: a SID, a greeting, a turn, an FS line or a
//! transfer.

use inputs::random::Random;
use inputs::{at, bid, body_of, call, either_case, fs_line, heading, line, respelt, spaced};
use second::fs::{self, Sign};
use second::host::Buffers;
use second::line::with_cr;
use second::memory::Memory;
use second::places;
use second::proposal::BLOCK_LIMIT;
use second::record::Form;
use second::session::{Offer, Phase, Role, Session};
use second::sid::{Level, Mode};
use second::transfer::checksum;

/// The longest body that is sent unless `long` says otherwise.
const SHORT_BODY: usize = 1_000;

/// How this partner speaks.
#[derive(Debug)]
pub struct Partner {
    framed: bool,
    /// Puts LF after CR: never, always, or once in so many lines.
    lf: Option<usize>,
    /// `;` lines and spaces at a line's end come once in so many lines.
    chatter: usize,
    /// Makes no slip of its own.
    calm: bool,
    /// Turns that it still wants to take, and how rarely one of them is FF.
    turns: usize,
    ff: usize,
    /// Which signs it likes to give.
    signs: &'static [u8],
    /// Says them as level 1 has it, where that is in force.
    later: bool,
    /// Ends its blocks with a bare `F>` once in so many, else with `F> HH`.
    bare: usize,
    /// Sends the longest bodies.
    long: bool,
    /// Numbers the BIDs that it makes up.
    fresh: u32,
    /// Proposals of a BID that stood in another case, and not as spelt: in the
    /// table, the known list, the inbox, earlier in the block.
    respelt: [u64; 4],
}

impl Partner {
    /// A partner for this host: mostly one to whom its records can be sent.
    pub fn new(random: &mut Random, host: &Buffers) -> Partner {
        let packed = host.table.get(places::RECORD_FORM).map(|&form| form != Form::Plain as u8);
        let (turns, ff) =
            random.pick(&[(1, 4), (2, 4), (3, 4), (5, 4), (8, 4), (12, 40), (60, 400)]);
        Partner {
            calm: random.once_in(4),
            turns,
            ff,
            framed: packed.filter(|_| !random.once_in(4)).unwrap_or(random.once_in(2)),
            lf: random.pick(&[None, None, Some(1), Some(3)]),
            chatter: random.pick(&[4, 20, 20, 1_000]),
            signs: random.pick(&[&b"+"[..], b"+-=", b"++-=", b"+++-", b"-", b"="]),
            later: !random.once_in(3),
            bare: random.pick(&[1, 2, usize::MAX]),
            long: host.store.len() > 65_000 && random.once_in(2),
            fresh: 0,
            respelt: [0; 4],
        }
    }

    /// One for a later session on the same memory.
    pub fn another(&self, random: &mut Random) -> Partner {
        let Partner { framed, fresh, long, .. } = *self;
        Partner { framed, fresh, long, ..Partner::new(random, &Buffers::default()) }
    }

    pub fn is_calm(&self) -> bool {
        self.calm
    }

    /// How often it proposed what stands in another case, by where it stands.
    pub fn respelt(&self) -> [u64; 4] {
        self.respelt
    }

    /// True once in so many, for a partner that makes slips.
    fn slips(&self, random: &mut Random, times: usize) -> bool {
        !self.calm && random.once_in(times)
    }

    /// The next unit, at times with the one that may follow it at once.
    pub fn say(&mut self, random: &mut Random, session: &Session, memory: &Memory) -> Vec<u8> {
        let mut out = Vec::new();
        let more = random.once_in(2);
        match session.phase() {
            Phase::Sid => {
                let sid = self.sid(random);
                self.line(random, &mut out, &sid);
                match session.role() {
                    Role::Called if more => self.turn(random, &mut out, session, memory),
                    Role::Caller if more => self.greeting(random, &mut out),
                    _ => {}
                }
            }
            Phase::Prompt => self.greeting(random, &mut out),
            Phase::Turn { .. } => self.turn(random, &mut out, session, memory),
            Phase::Answer { proposed } => {
                let line = self.fs(random, proposed.len(), session.level());
                self.line(random, &mut out, &line);
                let signs = fs::read(&line, proposed.len(), session.level());
                if more && signs.map_or(false, |signs| !signs.contains(&Sign::Accept)) {
                    self.turn(random, &mut out, session, memory);
                }
            }
            Phase::Transfers { owed, .. } => {
                for offer in owed.iter().take(if more { owed.len() } else { 1 }) {
                    self.transfer(random, &mut out, session, memory, offer);
                }
            }
            Phase::Quit | Phase::Over => out = line(random),
        }
        out
    }

    /// A line with what may stand around it; says what of that is the line itself, its
    /// CR included.
    fn line(&self, random: &mut Random, out: &mut Vec<u8>, text: &[u8]) -> Vec<u8> {
        if random.once_in(self.chatter) {
            out.extend(b"; ");
            out.extend(call(random));
            self.end_line(random, out);
        }
        let mut line = text.to_vec();
        if random.once_in(self.chatter) {
            line.extend(vec![b' '; random.within(1, 5)]);
        }
        out.extend_from_slice(&line);
        self.end_line(random, out);
        with_cr(&line)
    }

    fn end_line(&self, random: &mut Random, out: &mut Vec<u8>) {
        out.push(b'\r');
        if self.lf.map_or(false, |times| random.once_in(times)) {
            out.push(b'\n');
        }
    }

    /// A SID, once in a while without F or with a letter twice.
    fn sid(&self, random: &mut Random) -> Vec<u8> {
        let mut letters = b"ACDEGHIJKLMNOPQRSTUVWXYZ".to_vec();
        let mut features = Vec::new();
        if !self.slips(random, 60) {
            features.push(b'F');
        }
        if self.framed {
            features.push(b'B');
        }
        for _ in 0..random.within(0, 4) {
            features.push(letters.swap_remove(random.below(letters.len())));
        }
        if self.slips(random, 60) {
            features.push(b'F');
        }
        let mut sid = random.pick(&[&b"[TST-1-"[..], b"[A-", b"[BayCom-1.40P-", b"[A---"]).to_vec();
        let turn = random.below(features.len().max(1));
        features.rotate_left(turn);
        for letter in features {
            sid.push(either_case(random, letter));
            if random.once_in(3) {
                sid.push(b'0' + random.below(10) as u8);
            }
        }
        sid.extend(random.pick(&[&b"$]"[..], b"]"]));
        sid
    }

    /// Text lines, and a prompt.
    fn greeting(&self, random: &mut Random, out: &mut Vec<u8>) {
        for _ in 0..random.below(4) {
            let text = match random.below(4) {
                0 => random.pick(&[&b"FS +"[..], b">>", b"F6FBB> x", b"", b"a > b >"]).to_vec(),
                1 => fs_line(random, 2),
                _ => heading(random),
            };
            self.line(random, out, &text);
        }
        let mut prompt = if random.once_in(2) { call(random) } else { Vec::new() };
        prompt.retain(|&byte| byte != b'>' && byte != b';');
        prompt.push(b'>');
        self.line(random, out, &prompt);
    }

    /// FF, FQ where it is allowed, or a block.
    fn turn(&mut self, random: &mut Random, out: &mut Vec<u8>, session: &Session, memory: &Memory) {
        let tired = self.turns == 0;
        self.turns = self.turns.saturating_sub(1);
        if tired || random.once_in(self.ff) {
            // FQ after our FF and FF elsewhere, but for a slip now and then.
            let quit = session.our_turn_was_ff() != self.slips(random, 50);
            let letter = if quit { b'Q' } else { b'F' };
            let text = [either_case(random, b'F'), either_case(random, letter)];
            self.line(random, out, &text);
            return;
        }
        let count =
            if self.slips(random, 40) { BLOCK_LIMIT + 1 } else { random.within(1, BLOCK_LIMIT) };
        let (mut bids, mut lines) = (Vec::new(), Vec::new());
        for place in 1..=count {
            let mut text = self.proposal(random, session, memory, &mut bids);
            // 5 goes before 6: a sixth proposal that is none.
            if self.slips(random, if place > BLOCK_LIMIT { 2 } else { 200 }) {
                text.truncate(random.below(text.len()));
            }
            lines.extend(self.line(random, out, &text));
        }
        let text = self.block_end(random, &lines);
        self.line(random, out, &text);
    }

    /// `F>`, or `F> HH` with the checksum of these lines in digits of either case. A slip
    /// makes it that of a byte more or less, or gives it another form.
    fn block_end(&self, random: &mut Random, lines: &[u8]) -> Vec<u8> {
        let mut text = vec![either_case(random, b'F'), b'>'];
        if random.once_in(self.bare) {
            return text;
        }
        let off = if self.slips(random, 8) { random.pick(b"\r\n ;\x01\xFF\x80") } else { 0 };
        let digits = format!("{:02X}", checksum(lines).wrapping_add(off));
        text.push(b' ');
        text.extend(digits.bytes().map(|digit| either_case(random, digit)));
        if self.slips(random, 30) {
            match random.below(3) {
                0 => text.truncate(4),
                1 => text.insert(2, b' '),
                _ => text.push(random.pick(b"0;gG")),
            }
        }
        text
    }

    fn proposal(
        &mut self,
        random: &mut Random,
        session: &Session,
        memory: &Memory,
        bids: &mut Vec<Vec<u8>>,
    ) -> Vec<u8> {
        let letter = if self.framed { random.pick(b"AB") } else { b'B' };
        let kind = random.pick(b"PB");
        let bid = self.bid(random, session, memory, bids);
        bids.push(bid.clone());
        let fields = vec![
            vec![either_case(random, b'F'), either_case(random, letter)],
            vec![either_case(random, kind)],
            call(random),
            at(random),
            call(random),
            bid,
            self.size(random, session, memory),
        ];
        spaced(random, &fields)
    }

    /// A new BID, or one that is somewhere already.
    fn bid(
        &mut self,
        random: &mut Random,
        session: &Session,
        memory: &Memory,
        bids: &[Vec<u8>],
    ) -> Vec<u8> {
        let records = memory.table.iter().map(|record| record.envelope.bid.clone());
        let inbox = memory.inbox[..session.kept()].iter().flatten();
        let inbox = inbox.map(|message| message.envelope.bid.clone());
        let place = random.below(10);
        let old: Vec<Vec<u8>> = match place {
            0 => records.collect(),
            1 => memory.known.iter().take(20).cloned().collect(),
            2 => inbox.collect(),
            3 => bids.to_vec(),
            _ => Vec::new(),
        };
        if !old.is_empty() {
            let copied = &old[random.below(old.len())];
            let bid = nearly(random, copied);
            let stands = old.iter().any(|other| other.eq_ignore_ascii_case(&bid));
            self.respelt[place] += u64::from(stands && !old.contains(&bid));
            return bid;
        }
        self.fresh += 1;
        let mut new = bid(random);
        new.truncate(8);
        new.extend(format!("{:03}", self.fresh % 1_000).bytes());
        new
    }

    /// Size digits: what a body may have, or what the answer turns on.
    fn size(&self, random: &mut Random, session: &Session, memory: &Memory) -> Vec<u8> {
        let free = memory.store.len() - session.used();
        let size = match random.below(16) {
            _ if self.long && random.once_in(2) => random.pick(&[65_534, 65_535, 65_536]),
            // Sizes that leave room for many more.
            _ if self.calm && random.once_in(2) => random.below(100),
            0 => random.pick(&[65_534, 65_535, 65_536, 999_999, 999_999_999]),
            1 => free + random.below(3),
            2 => free.saturating_sub(random.below(3)),
            3 => random.below(1_000_000_000),
            4 => 0,
            _ => random.within(1, 300),
        };
        let digits = size.min(999_999_999).to_string().into_bytes();
        let zeros = if random.once_in(8) { random.within(0, 9 - digits.len()) } else { 0 };
        [vec![b'0'; zeros], digits].concat()
    }

    /// An FS line by the level in force; a slip takes signs of the other, or a number with
    /// too many digits or none.
    fn fs(&self, random: &mut Random, proposals: usize, level: Level) -> Vec<u8> {
        let later = (level == Level::One && self.later) != self.slips(random, 60);
        let mut line = vec![either_case(random, b'F'), either_case(random, b'S'), b' '];
        for _ in 0..proposals {
            let sign = random.pick(self.signs);
            match later {
                true => self.later_sign(random, &mut line, sign),
                false => line.push(sign),
            }
        }
        line
    }

    /// One of the ways in which level 1 says a sign.
    fn later_sign(&self, random: &mut Random, line: &mut Vec<u8>, sign: u8) {
        let mark = match sign {
            b'+' => random.pick(b"+YHA!"),
            b'-' => random.pick(b"-NR"),
            _ => random.pick(b"=LEA!"),
        };
        line.push(either_case(random, mark));
        if b"A!".contains(&mark) {
            let most = if self.slips(random, 20) { 8 } else { 6 };
            let digits = if self.slips(random, 40) { 0 } else { random.within(1, most) };
            let mut number = vec![b'0'; digits];
            if sign != b'+' && digits > 0 {
                number[random.below(digits)] = random.pick(b"123456789");
            }
            line.extend(number);
        }
    }

    /// A transfer that is owed, with the body announced, or a longer or shorter one.
    fn transfer(
        &self,
        random: &mut Random,
        out: &mut Vec<u8>,
        session: &Session,
        memory: &Memory,
        offer: &Offer,
    ) {
        let announced = offer.size as usize;
        let free = memory.store.len() - session.used();
        let length = match random.below(16) {
            _ if self.calm => announced,
            _ if self.long && random.once_in(4) => random.within(65_534, 65_537),
            0 => free + random.below(3),
            1 => announced + 1,
            2 => random.below(300),
            _ => announced,
        };
        let limit = if self.long { 65_537 } else { SHORT_BODY };
        let plain = session.mode() == Mode::Plain;
        let mut body = body_of(random, length.min(limit), plain);
        if !body.is_empty() && random.once_in(8) {
            body[0] = b'\n';
        }
        let heading = heading(random);
        if plain {
            out.extend(inputs::plain(random, &heading, &body));
            if self.lf.map_or(false, |times| random.once_in(times)) {
                out.push(b'\n');
            }
        } else {
            out.extend(inputs::framed(random, &heading, &body));
            // DECISIONS 5: here an LF is an ordinary byte.
            if self.slips(random, 100) {
                out.push(b'\n');
            }
        }
    }
}

/// A BID that is there already: as it is, in another case, or changed in one bit
/// of one byte, which is a copy if that is a letter's case and else is none.
fn nearly(random: &mut Random, bid: &[u8]) -> Vec<u8> {
    match random.below(4) {
        0 => {
            let mut bid = bid.to_vec();
            let place = random.below(bid.len());
            let changed = bid[place] ^ random.pick(&[0x20, 0x20, 0x80, 0x01]);
            bid[place] = if changed > 0x20 { changed } else { bid[place] };
            bid
        }
        1 => respelt(random, bid),
        _ => bid.to_vec(),
    }
}
