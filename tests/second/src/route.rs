//! Routing headers: request Q-8 and document 003, "Message Routing Header".

use crate::field::{is_at, BODY_MAX, SIZE_DIGITS};
use std::ops::Range;

/// What a header says; the mailbox by its place in what was read.
#[derive(Clone, Debug, PartialEq, Eq)]
pub struct Header {
    pub year: u16,
    pub month: u8,
    pub day: u8,
    pub hour: u8,
    pub minute: u8,
    /// The zone is known, and is GMT.
    pub gmt: bool,
    pub number: u32,
    pub mailbox: Range<usize>,
}

/// "A line here follows the title's CR or a body CR, less one LF, and runs to
/// the next CR or the body's end", "an empty one at the body's end left out".
pub fn lines(body: &[u8]) -> Vec<Range<usize>> {
    let mut lines = Vec::new();
    let mut at = 0;
    for piece in body.split(|&byte| byte == b'\r') {
        let feed = usize::from(piece.first() == Some(&b'\n'));
        lines.push(at + feed..at + piece.len());
        at += piece.len() + 1;
    }
    if lines.last().map_or(false, |last| last.is_empty()) {
        lines.pop();
    }
    lines
}

/// The calendar's own rule, though 2100 cannot come up.
pub(crate) fn days_of(year: u16, month: u8) -> u8 {
    match month {
        4 | 6 | 9 | 11 => 30,
        2 if year % 4 == 0 && (year % 100 != 0 || year % 400 == 0) => 29,
        2 => 28,
        _ => 31,
    }
}

/// "Month 1 to 12, day fitting the month"; a year of 70 to 99 or of 00 to 69.
pub fn is_date(year: u16, month: u8, day: u8) -> bool {
    (1970..2070).contains(&year)
        && (1..=12).contains(&month)
        && day >= 1
        && day <= days_of(year, month)
}

/// "hour to 23, minute to 59"
pub fn is_time(hour: u8, minute: u8) -> bool {
    hour < 24 && minute < 60
}

fn pair(digits: &[u8], at: usize) -> Option<u8> {
    let text = std::str::from_utf8(digits.get(at..at + 2)?).ok()?;
    match text.bytes().all(|byte| byte.is_ascii_digit()) {
        true => text.parse().ok(),
        false => None,
    }
}

/// "a number has 1 to 9 digits"
fn number(digits: &[u8]) -> Option<u32> {
    let fits = (1..=SIZE_DIGITS).contains(&digits.len());
    if !fits || !digits.iter().all(u8::is_ascii_digit) {
        return None;
    }
    std::str::from_utf8(digits).ok()?.parse().ok()
}

/// "a mailbox, or the number after `#:`, ends at a space or the line's end"
fn word(text: &[u8]) -> &[u8] {
    text.split(|&byte| byte == b' ').next().unwrap_or(text)
}

/// Number and mailbox in what follows the white space, the mailbox's start
/// counted from there.
fn station(text: &[u8]) -> Option<(u32, Range<usize>)> {
    let (number, start) = match text.strip_prefix(b"@:") {
        Some(after) => {
            let remarks = &after[word(after).len()..];
            let mark = remarks.windows(2).position(|pair| pair == b"#:")?;
            (number(word(&remarks[mark + 2..]))?, 2)
        }
        None => {
            let sign = text.iter().position(|&byte| byte == b'@')?;
            (number(&text[..sign])?, sign + 1)
        }
    };
    let mailbox = word(&text[start..]);
    match is_at(mailbox) {
        true => Some((number, start..start + mailbox.len())),
        false => None,
    }
}

/// The header that a line is, in either form of 003.
pub fn header(line: &[u8]) -> Option<Header> {
    let stamp = line.strip_prefix(b"R:")?;
    let (two, month, day) = (pair(stamp, 0)?, pair(stamp, 2)?, pair(stamp, 4)?);
    if stamp.get(6) != Some(&b'/') {
        return None;
    }
    let (hour, minute) = (pair(stamp, 7)?, pair(stamp, 9)?);
    // "years 70 to 99 are 19xx, the rest 20xx"
    let year = u16::from(two) + if two >= 70 { 1900 } else { 2000 };
    if !is_date(year, month, day) || !is_time(hour, minute) {
        return None;
    }
    let mut rest = &stamp[11..];
    let zone = rest.first().copied().filter(u8::is_ascii_alphabetic);
    if zone.is_some() {
        rest = &rest[1..];
    }
    let white = rest.iter().take_while(|&&byte| byte == b' ' || byte == b'\t').count();
    if white == 0 {
        return None;
    }
    let (number, place) = station(&rest[white..])?;
    let before = line.len() - rest.len() + white;
    Some(Header {
        year,
        month,
        day,
        hour,
        minute,
        gmt: matches!(zone, Some(b'z' | b'Z')),
        number,
        mailbox: before + place.start..before + place.end,
    })
}

/// The headers of a body from the top: "The headers end at the first line that
/// isn't one". Each with the place from which the next is read.
pub fn route(body: &[u8]) -> Vec<(Header, usize)> {
    let mut route = Vec::new();
    for line in lines(body) {
        match header(&body[line.clone()]) {
            Some(mut found) => {
                found.mailbox = found.mailbox.start + line.start..found.mailbox.end + line.start;
                route.push((found, body.len().min(line.end + 1)));
            }
            None => break,
        }
    }
    route
}

/// "the lowest names the origin"
pub fn origin(body: &[u8]) -> Option<Range<usize>> {
    route(body).pop().map(|(header, _)| header.mailbox)
}

/// What the writer is given.
#[derive(Clone, Debug)]
pub struct Ours {
    pub year: u16,
    pub month: u8,
    pub day: u8,
    pub hour: u8,
    pub minute: u8,
    pub number: u32,
    pub mailbox: Vec<u8>,
}

/// "1 a field or time outside these rules, then 2 buffer too short, or over
/// 65,535 bytes in all"; else the whole text.
pub fn add(ours: &Ours, body: &[u8], room: usize) -> Result<Vec<u8>, u8> {
    let time = is_date(ours.year, ours.month, ours.day) && is_time(ours.hour, ours.minute);
    if !time || ours.number > 999_999_999 || !is_at(&ours.mailbox) {
        return Err(1);
    }
    let two = ours.year % 100;
    let mut text = format!(
        "R:{two:02}{:02}{:02}/{:02}{:02}z {}@",
        ours.month, ours.day, ours.hour, ours.minute, ours.number
    )
    .into_bytes();
    text.extend(&ours.mailbox);
    text.push(b'\r');
    text.extend(body);
    match text.len() <= BODY_MAX && text.len() <= room {
        true => Ok(text),
        false => Err(2),
    }
}

#[cfg(test)]
mod tests {
    use super::*;

    const SAMPLE: &[u8] = b"R:930108/1729 @:N6QMY.#NOCAL.CA.USA.NA Fremont #:1114 Z:94536\r\
        R:930108/1259 1530@KA6FUB.#NOCAL.CA.USA.NA\r\
        R:930107/1638z @:WD6CMU.#NOCAL.CA.USA.NA \"OSKbox\" #:10576 Z:94805\r\
        R:930107/1045 50724@WX3K.#NOCAL.CA.USA.NA\r\
        \r\
        The message body goes here.";

    #[test]
    fn the_example_message_of_003() {
        let route = route(SAMPLE);
        let numbers: Vec<u32> = route.iter().map(|(header, _)| header.number).collect();
        assert_eq!(numbers, [1114, 1530, 10576, 50724]);
        let gmt: Vec<bool> = route.iter().map(|(header, _)| header.gmt).collect();
        assert_eq!(gmt, [false, false, true, false]);
        assert_eq!(&SAMPLE[origin(SAMPLE).unwrap()], b"WX3K.#NOCAL.CA.USA.NA");
    }

    #[test]
    fn lines_by_cr_and_cr_lf() {
        assert_eq!(lines(b""), []);
        assert_eq!(lines(b"\r\n"), [0..0]);
        assert_eq!(lines(b"\na\r\nb\r\n"), [1..2, 4..5]);
    }

    #[test]
    fn what_is_written_reads_back() {
        let ours = Ours {
            year: 2026,
            month: 3,
            day: 7,
            hour: 5,
            minute: 9,
            number: 42,
            mailbox: b"N0DE.FRA.EU".to_vec(),
        };
        let text = add(&ours, SAMPLE, 65_535).unwrap();
        assert!(text.starts_with(b"R:260307/0509z 42@N0DE.FRA.EU\rR:930108"));
        assert_eq!(route(&text).len(), 5);
    }
}
