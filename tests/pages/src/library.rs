//! The proved library over its C interface (include/fringemole_pages.h), behind
//! safe functions.

#![allow(unsafe_code)]

use second::pages::{Given, Line, Mail, Member, Why};
use std::ops::Range;

/// What a mail holds; goes along with each question for a line.
#[repr(C)]
#[derive(Clone, Copy)]
pub struct Survey {
    records: usize,
    dropped: usize,
    version: u32,
    unread: u8,
}

#[repr(C)]
#[derive(Clone, Copy, Default, PartialEq)]
struct Field {
    start: usize,
    end: usize,
}

#[repr(C)]
#[derive(Clone, Copy, Default, PartialEq)]
struct Page {
    next: usize,
    start: usize,
    end: usize,
    call: Field,
    home: Field,
    bid: Field,
    origin: Field,
    name: Field,
    zip: Field,
    town: Field,
    stamp: u64,
    hops: u64,
    version: u32,
    kind: u8,
    why: u8,
}

#[repr(C)]
struct Seconds {
    seconds: i64,
    answer: u8,
}

#[repr(C)]
struct Date {
    year: u16,
    month: u8,
    day: u8,
    text: [u8; 6],
    answer: u8,
}

extern "C" {
    fn fringemole_pages_survey(mail: *const u8, n: usize) -> Survey;
    fn fringemole_pages_next(mail: *const u8, n: usize, survey: Survey, at: usize) -> Page;
    fn fringemole_pages_seconds(date: *const u8, n: usize) -> Seconds;
    fn fringemole_pages_date(seconds: i64) -> Date;
}

impl Field {
    fn place(self) -> Range<usize> {
        self.start..self.end
    }
}

impl Page {
    fn member(&self) -> Member {
        Member {
            call: self.call.place(),
            home: self.home.place(),
            bid: self.bid.place(),
            stamp: self.stamp,
            origin: self.origin.place(),
            hops: self.hops,
            name: self.name.place(),
            zip: self.zip.place(),
            town: self.town.place(),
        }
    }

    /// Whether all that is no matter of its kind is 0.
    fn is_bare(&self) -> bool {
        let &Page { next, start, end, kind, .. } = self;
        let mut bare = Page { next, start, end, kind, ..Page::default() };
        match kind {
            0 => bare = Page::default(),
            1 => bare.version = self.version,
            2 => bare = Page { version: 0, why: 0, ..*self },
            4 => bare.why = self.why,
            _ => {}
        }
        *self == bare
    }

    fn line(&self) -> Option<Line> {
        assert!(self.is_bare(), "kind {} with what it doesn't have", self.kind);
        Some(match self.kind {
            0 => return None,
            1 => Line::Version(self.version.try_into().expect("two digits")),
            2 => Line::Member(self.member()),
            3 => Line::Other,
            4 => Line::Dropped(why(self.why)),
            kind => panic!("kind {kind}"),
        })
    }
}

fn why(number: u8) -> Why {
    use Why::*;
    let all = [NoRecord, Version, Call, Home, Bid, Stamp, Origin, Hops, Name, Zip, Town];
    all.into_iter().find(|why| *why as u8 == number).expect("a reason")
}

pub fn survey(mail: &[u8]) -> Survey {
    unsafe { fringemole_pages_survey(mail.as_ptr(), mail.len()) }
}

impl Survey {
    /// Whether it says of a mail what the second implementation does.
    pub fn is_of(&self, mail: &Mail) -> bool {
        let numbers = (self.records, self.dropped, self.version, self.unread);
        numbers == (mail.records(), mail.dropped(), mail.version.into(), mail.unread.into())
    }
}

/// The line at a place.
pub fn next(mail: &[u8], survey: Survey, at: usize) -> Option<Given> {
    let page = unsafe { fringemole_pages_next(mail.as_ptr(), mail.len(), survey, at) };
    page.line().map(|line| Given { place: page.start..page.end, next: page.next, line })
}

pub fn seconds(date: &[u8]) -> Result<i64, u8> {
    let seconds = unsafe { fringemole_pages_seconds(date.as_ptr(), date.len()) };
    match seconds.answer {
        0 => Ok(seconds.seconds),
        answer => {
            assert_eq!(seconds.seconds, 0);
            Err(answer)
        }
    }
}

/// The six digits; year, month and day must say the same.
pub fn date(seconds: i64) -> Result<[u8; 6], u8> {
    let Date { year, month, day, text, answer } = unsafe { fringemole_pages_date(seconds) };
    if answer != 0 {
        assert_eq!((year, month, day, text), (0, 0, 0, [0; 6]));
        return Err(answer);
    }
    assert!((1970..2070).contains(&year));
    assert_eq!(format!("{:02}{month:02}{day:02}", year % 100).as_bytes(), text);
    Ok(text)
}
