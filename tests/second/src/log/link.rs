//! Cuts whole lines and transfers from what went over the link.

use super::trace::{Side, Trace};
use crate::line::{is_comment, trimmed, CR, LF, LINE_LIMIT};
use crate::sid::Mode;
use crate::transfer::whole::{read_framed, read_plain};
use crate::transfer::Outcome;

/// The link, with what is cut off already gone. Every cut gives `None` where no
/// whole thing of its kind comes next, or the other side speaks before its end:
/// only one side has the word at a time (11).
pub(super) struct Link<'a> {
    trace: &'a Trace,
    ours: usize,
    partner: usize,
}

impl<'a> Link<'a> {
    pub(super) fn new(trace: &'a Trace) -> Link<'a> {
        Link { trace, ours: 0, partner: 0 }
    }

    fn at(&self, side: Side) -> usize {
        match side {
            Side::Us => self.ours,
            Side::Partner => self.partner,
        }
    }

    fn rest(&self, side: Side) -> &'a [u8] {
        &self.trace.bytes(side)[self.at(side)..]
    }

    /// Cuts off so many bytes of a side.
    fn cut(&mut self, side: Side, count: usize) -> Option<&'a [u8]> {
        let bytes = &self.rest(side)[..count];
        let end = self.at(side) + count;
        let last = self.trace.stream(side).call(end - 1)?;
        let other = self.trace.stream(side.other()).call(self.at(side.other()));
        if other.map_or(false, |other| other < last) {
            return None;
        }
        match side {
            Side::Us => self.ours = end,
            Side::Partner => self.partner = end,
        }
        Some(bytes)
    }

    /// "One LF directly after the CR that ended a line, or after the CR that
    /// closes a plain transfer, is dropped". DECISIONS 3: directly after it in what
    /// the partner sent, whatever we gave in between.
    fn drop_lf(&mut self) {
        if self.rest(Side::Partner).first() == Some(&LF) {
            self.partner += 1;
        }
    }

    /// The next line, trimmed, without its CR.
    pub(super) fn line(&mut self, side: Side) -> Option<&'a [u8]> {
        self.received_line(side).map(trimmed)
    }

    /// The next line as it went over the link, without its CR. Lines that begin
    /// with `;` are passed over.
    pub(super) fn received_line(&mut self, side: Side) -> Option<&'a [u8]> {
        loop {
            let length = self.rest(side).iter().position(|&byte| byte == CR)?;
            if length > LINE_LIMIT {
                return None;
            }
            let line = &self.cut(side, length + 1)?[..length];
            if side == Side::Partner {
                self.drop_lf();
            }
            if !is_comment(line) {
                return Some(line);
            }
        }
    }

    /// These bytes and no other.
    pub(super) fn exactly(&mut self, side: Side, bytes: &[u8]) -> Option<()> {
        if !self.rest(side).starts_with(bytes) {
            return None;
        }
        self.cut(side, bytes.len()).map(drop)
    }

    /// The partner's next whole transfer: heading and body. "A body over 65,535 bytes is
    /// not valid" (DECISIONS 59), whatever room there was.
    pub(super) fn transfer(&mut self, mode: Mode) -> Option<(Vec<u8>, Vec<u8>)> {
        let rest = self.rest(Side::Partner);
        let reading = match mode {
            Mode::Plain => read_plain(rest, usize::MAX),
            Mode::Framed => read_framed(rest, usize::MAX),
        };
        if reading.outcome != Outcome::Whole {
            return None;
        }
        self.cut(Side::Partner, reading.consumed)?;
        if mode == Mode::Plain {
            self.drop_lf();
        }
        Some((reading.heading.to_vec(), reading.body))
    }
}
