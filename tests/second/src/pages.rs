//! White pages: request Q-10 and document 004, "WPROT".

use crate::field::{is_at, is_bid, is_call};
use crate::route::{days_of, is_date, lines};
use std::ops::Range;

/// "a flag of 1 to 10 bytes"
const FLAG_LIMIT: usize = 10;
/// "numbers of 1 to 10 digits"
const NUMBER_DIGITS: usize = 10;
/// "`10` is version 1.0; above 10 .. the whole mail is left unread"
const OUR_VERSION: u8 = 10;
/// "of that midnight GMT less one day"
const DAY: i64 = 86_400;

/// "Refusals of this reader are its own: 1 bad date, 2 out of range."
pub const BAD_DATE: u8 = 1;
pub const OUT_OF_RANGE: u8 = 2;

/// An M record; its texts by their places in its line.
#[derive(Clone, Debug, PartialEq, Eq)]
pub struct Member {
    pub call: Range<usize>,
    pub home: Range<usize>,
    pub bid: Range<usize>,
    pub stamp: u64,
    pub origin: Range<usize>,
    pub hops: u64,
    pub name: Range<usize>,
    pub zip: Range<usize>,
    pub town: Range<usize>,
}

/// The first thing, from the left, that breaks its rule.
#[derive(Clone, Copy, Debug, PartialEq, Eq, PartialOrd, Ord)]
pub enum Why {
    NoRecord = 1,
    Version,
    Call,
    Home,
    Bid,
    Stamp,
    Origin,
    Hops,
    Name,
    Zip,
    Town,
}

/// What a line is.
#[derive(Clone, Debug, PartialEq, Eq)]
pub enum Line {
    Version(u8),
    Member(Member),
    /// A record of another flag: skipped.
    Other,
    /// "a line of another form is dropped and counted"
    Dropped(Why),
}

/// A line of a mail, and the place from which the next is read.
#[derive(Clone, Debug, PartialEq, Eq)]
pub struct Given {
    pub place: Range<usize>,
    pub next: usize,
    pub line: Line,
}

/// What a mail gives.
#[derive(Clone, Debug, Default, PartialEq, Eq)]
pub struct Mail {
    pub unread: bool,
    /// The highest version that a V record says.
    pub version: u8,
    pub lines: Vec<Given>,
}

impl Mail {
    /// How many of its lines are of such a kind.
    pub fn count(&self, kind: fn(&Line) -> bool) -> usize {
        self.lines.iter().filter(|given| kind(&given.line)).count()
    }

    pub fn records(&self) -> usize {
        self.count(|line| matches!(line, Line::Version(_) | Line::Member(_)))
    }

    pub fn dropped(&self) -> usize {
        self.count(|line| matches!(line, Line::Dropped(_)))
    }
}

/// The place of a part of a line.
fn place(line: &[u8], part: &[u8]) -> Range<usize> {
    let start = part.as_ptr() as usize - line.as_ptr() as usize;
    start..start + part.len()
}

fn cut(text: &[u8], at: usize) -> (&[u8], &[u8]) {
    (&text[..at], &text[at + 1..])
}

/// Before and after the first space.
fn at_space(text: &[u8]) -> Option<(&[u8], &[u8])> {
    text.iter().position(|&byte| byte == b' ').map(|space| cut(text, space))
}

fn number(digits: &[u8]) -> Option<u64> {
    let fits = (1..=NUMBER_DIGITS).contains(&digits.len());
    if !fits || !digits.iter().all(u8::is_ascii_digit) {
        return None;
    }
    std::str::from_utf8(digits).ok()?.parse().ok()
}

/// `"name" zip "town"`, from both ends: a zip may hold a quote, the quoted
/// texts may not, so the outer pairs of quotes are theirs.
fn texts(text: &[u8]) -> Option<(&[u8], &[u8], &[u8])> {
    let inner = text.strip_prefix(b"\"")?.strip_suffix(b"\"")?;
    let (name, rest) = cut(inner, inner.iter().position(|&byte| byte == b'"')?);
    let (middle, town) = cut(rest, rest.iter().rposition(|&byte| byte == b'"')?);
    let zip = middle.strip_prefix(b" ")?.strip_suffix(b" ")?;
    match zip.is_empty() || zip.contains(&b' ') {
        true => None,
        false => Some((name, zip, town)),
    }
}

/// "M gives call, home mailbox, BID, time stamp, origin, hops, quoted name, zip,
/// quoted town, one space apart"
fn member(line: &[u8], data: &[u8]) -> Option<Member> {
    let (call, rest) = at_space(data)?;
    let (home, rest) = at_space(rest)?;
    let (bid, rest) = at_space(rest)?;
    let (stamp, rest) = at_space(rest)?;
    let (origin, rest) = at_space(rest)?;
    let (hops, rest) = at_space(rest)?;
    let (name, zip, town) = texts(rest)?;
    if !is_call(call) || !is_at(home) || !is_bid(bid) || !is_at(origin) {
        return None;
    }
    Some(Member {
        call: place(line, call),
        home: place(line, home),
        bid: place(line, bid),
        stamp: number(stamp)?,
        origin: place(line, origin),
        hops: number(hops)?,
        name: place(line, name),
        zip: place(line, zip),
        town: place(line, town),
    })
}

/// "V gives two decimal digits"
fn version(data: &[u8]) -> Option<u8> {
    match data {
        [tens @ b'0'..=b'9', ones @ b'0'..=b'9'] => Some((tens - b'0') * 10 + ones - b'0'),
        _ => None,
    }
}

/// "two hexadecimal digits in either case, a flag of 1 to 10 bytes, data"
fn flag_and_data(line: &[u8]) -> Option<(&[u8], &[u8])> {
    let (digits, rest) = at_space(line)?;
    let (flag, data) = at_space(rest)?;
    let right = digits.len() == 2
        && digits.iter().all(u8::is_ascii_hexdigit)
        && (1..=FLAG_LIMIT).contains(&flag.len());
    match right {
        true => Some((flag, data)),
        false => None,
    }
}

/// What follows a quoted text.
fn after_quoted(text: &[u8]) -> Option<&[u8]> {
    let inner = text.strip_prefix(b"\"")?;
    let end = inner.iter().position(|&byte| byte == b'"')?;
    Some(&inner[end + 1..])
}

/// Which field of an M record is the first that breaks its rule; one that isn't
/// there does, and so does a name without the space behind it. Apart from
/// [`member`], which never asks for it.
fn why(data: &[u8]) -> Option<Why> {
    let is_number = |digits: &[u8]| number(digits).is_some();
    let mut words = data.splitn(7, |&byte| byte == b' ');
    let mut wrong = |rule: &dyn Fn(&[u8]) -> bool| !words.next().map_or(false, rule);
    let firsts = [
        (wrong(&is_call), Why::Call),
        (wrong(&is_at), Why::Home),
        (wrong(&is_bid), Why::Bid),
        (wrong(&is_number), Why::Stamp),
        (wrong(&is_at), Why::Origin),
        (wrong(&is_number), Why::Hops),
    ];
    if let Some((_, why)) = firsts.iter().find(|(wrong, _)| *wrong) {
        return Some(*why);
    }
    let zip = match after_quoted(words.next().unwrap_or_default()) {
        Some([b' ', zip @ ..]) => zip,
        _ => return Some(Why::Name),
    };
    let end = zip.iter().position(|&byte| byte == b' ').unwrap_or(zip.len());
    if end == 0 {
        return Some(Why::Zip);
    }
    match zip.get(end + 1..).and_then(after_quoted) {
        Some([]) => None,
        _ => Some(Why::Town),
    }
}

pub fn line(line: &[u8]) -> Line {
    match flag_and_data(line) {
        Some((b"V", data)) => version(data).map_or(Line::Dropped(Why::Version), Line::Version),
        Some((b"M", data)) => match (member(line, data), why(data)) {
            (Some(member), None) => Line::Member(member),
            (None, Some(why)) => Line::Dropped(why),
            both => panic!("judged twice, and differently: {both:?} of {}", line.escape_ascii()),
        },
        Some(_) => Line::Other,
        None => Line::Dropped(Why::NoRecord),
    }
}

/// "above 10 in any V record the whole mail is left unread, with no record given
/// and none counted as dropped"
pub fn mail(body: &[u8]) -> Mail {
    let mut mail = Mail::default();
    for place in lines(body) {
        let line = line(&body[place.clone()]);
        if let Line::Version(version) = line {
            mail.version = mail.version.max(version);
        }
        let next = body.len().min(place.end + 1);
        mail.lines.push(Given { place, next, line });
    }
    if mail.version > OUR_VERSION {
        mail.unread = true;
        mail.lines.clear();
    }
    mail
}

/// The days of each month of a hundred years, one month after the other.
fn months() -> impl Iterator<Item = (u16, u8, u8)> {
    let of_year = |year| (1..=12).map(move |month| (year, month, days_of(year, month)));
    (1970..2070).flat_map(of_year)
}

/// "YYMMDD by Q-8's rules becomes the seconds of that midnight GMT less one day,
/// as a signed number that may fall before 1970"
pub fn seconds(date: &[u8]) -> Result<i64, u8> {
    if date.len() != 6 || !date.iter().all(u8::is_ascii_digit) {
        return Err(BAD_DATE);
    }
    let pair = |at: usize| (date[at] - b'0') * 10 + date[at + 1] - b'0';
    let year = u16::from(pair(0)) + if pair(0) >= 70 { 1900 } else { 2000 };
    let (month, day) = (pair(2), pair(4));
    if !is_date(year, month, day) {
        return Err(BAD_DATE);
    }
    let before = months().take_while(|&(y, m, _)| (y, m) < (year, month));
    let days = before.map(|(_, _, days)| i64::from(days)).sum::<i64>() + i64::from(day) - 1;
    Ok((days - 1) * DAY)
}

/// "The way back cuts off the time of day and adds nothing", "refused before 0
/// and from the year 2070 on"
pub fn date(seconds: i64) -> Result<[u8; 6], u8> {
    if seconds < 0 {
        return Err(OUT_OF_RANGE);
    }
    let mut left = seconds / DAY;
    for (year, month, days) in months() {
        if left < i64::from(days) {
            let text = format!("{:02}{month:02}{:02}", year % 100, left + 1);
            return text.into_bytes().try_into().map_err(|_| OUT_OF_RANGE);
        }
        left -= i64::from(days);
    }
    Err(OUT_OF_RANGE)
}

#[cfg(test)]
mod tests {
    use super::*;

    /// 004's sample mail, its lines ended by CR.
    const SAMPLE: &[u8] = b"R:990407/0944z @:OE3DZW.#OE3.AUT.EU [BayCom-Mailbox] Bcm1.40P\r\
        \r\
        D7 V 10\r\
        68 B OE3DZW.#OE3.AUT.EU 10 0 DL8MBT AX25 OE3DZW-8 923478289 1\r\
        5C M OE3DZW OE3DZW.#OE3.AUT.EU 749OE3DZW004 923471053 OE3DZW 1 \"Dietmar\" ? \"?\"\r\
        00 E WW OE3DZW F29OE3DZW007 F29OE3DZW006 OE3DZW 1 \"#E\"\r";

    const GOOD: &str = "00 M A B C 1 D 1 \"\" z \"\"";

    fn kept(text: &str) -> bool {
        !matches!(line(text.as_bytes()), Line::Dropped(_))
    }

    /// GOOD with one of its parts in another spelling.
    fn with(part: &str, other: &str) -> bool {
        kept(&GOOD.replacen(part, other, 1))
    }

    #[test]
    fn the_sample_mail_of_004() {
        let mail = mail(SAMPLE);
        let skipped = mail.count(|line| *line == Line::Other);
        let counts = (mail.unread, mail.version, mail.records(), skipped, mail.dropped());
        assert_eq!(counts, (false, 10, 2, 2, 2));
        assert!(SAMPLE[mail.lines[2].place.start..].starts_with(b"D7 V 10\r68"));
        let Given { place, line, .. } = &mail.lines[4];
        let text = |field: &Range<usize>| {
            let field = &SAMPLE[place.start + field.start..place.start + field.end];
            std::str::from_utf8(field).unwrap()
        };
        match line {
            Line::Member(member) => {
                let texts = [&member.call, &member.home, &member.bid, &member.origin];
                assert_eq!(
                    texts.map(text),
                    ["OE3DZW", "OE3DZW.#OE3.AUT.EU", "749OE3DZW004", "OE3DZW"]
                );
                let texts = [&member.name, &member.zip, &member.town];
                assert_eq!(texts.map(text), ["Dietmar", "?", "?"]);
                assert_eq!((member.stamp, member.hops), (923_471_053, 1));
            }
            other => panic!("{other:?}"),
        }
    }

    #[test]
    fn the_sample_line_of_004() {
        let sample =
            b"48 M OE3DZW OE3DZW.#OE3.AUT.EU F29OE3DZW004 919094319 OE3DZW 1 \"Dietmar\" ? \"?\"";
        assert!(matches!(line(sample), Line::Member(member) if member.stamp == 919_094_319));
        assert_eq!(line(b"2F E WW OE3DZW F29OE3DZW007 F29OE3DZW006 OE3DZW 1 \"#E\""), Line::Other);
    }

    #[test]
    fn the_first_thing_that_breaks_its_rule() {
        for (data, why) in [
            ("", Why::Call),
            (" A", Why::Call),
            ("A", Why::Home),
            ("A ", Why::Home),
            ("TOOLONG .", Why::Call),
            ("A B.", Why::Home),
            ("A B", Why::Bid),
            ("A B C x", Why::Stamp),
            ("A B C 1", Why::Origin),
            ("A B C 1 D 12345678901", Why::Hops),
            ("A B C 1 D 1", Why::Name),
            ("A B C 1 D 1 \"x", Why::Name),
            ("A B C 1 D 1 \"x\"y z \"\"", Why::Name),
            ("A B C 1 D 1 \"x\"", Why::Name),
            ("A B C 1 D 1 \"x\" ", Why::Zip),
            ("A B C 1 D 1 \"x\"  \"\"", Why::Zip),
            ("A B C 1 D 1 \"x\" z", Why::Town),
            ("A B C 1 D 1 \"x\" z \"\" ", Why::Town),
        ] {
            assert_eq!(line(format!("00 M {data}").as_bytes()), Line::Dropped(why), "{data}");
        }
        assert_eq!(line(b"00 V 1"), Line::Dropped(Why::Version));
        assert_eq!(line(b"00 M"), Line::Dropped(Why::NoRecord));
    }

    #[test]
    fn a_line_is_digits_flag_and_data_one_space_apart() {
        for good in ["00 X ", "aF X data", "Fa 0123456789 ", "00 X  ", "99 \" "] {
            assert_eq!(line(good.as_bytes()), Line::Other, "{good}");
        }
        for bad in [
            "",
            " ",
            "00",
            "00 ",
            "00 X",
            "0 X ",
            "000 X ",
            "0G X ",
            "G0 X ",
            " 00 X ",
            "00  X ",
            "00\tX ",
            "00 0123456789A ",
            "00 X\t",
            "On 990407 A",
        ] {
            assert!(!kept(bad), "{bad}");
        }
    }

    #[test]
    fn flags_are_taken_as_they_stand() {
        for other in ["v 99", "m ", "VM 10", "MM A", "E ", "B "] {
            assert_eq!(line(format!("00 {other}").as_bytes()), Line::Other);
        }
    }

    #[test]
    fn a_version_has_two_digits() {
        for bad in ["", "1", "110", "010", "1.0", " 10", "10 ", "1a", "-1"] {
            assert!(!kept(&format!("00 V {bad}")), "{bad}");
        }
        for version in 0..100 {
            let found = line(format!("00 V {version:02}").as_bytes());
            assert_eq!(found, Line::Version(version));
        }
    }

    #[test]
    fn a_newer_version_anywhere_leaves_the_mail_unread() {
        for newer in ["00 V 11", "00 V 99"] {
            for (front, back) in
                [("", ""), ("", "\rbad\r"), ("00 V 10\rbad\r", ""), ("bad\r\n", "\r\n")]
            {
                let mail = mail(format!("{front}{newer}{back}").as_bytes());
                assert!(mail.unread && mail.version > 10 && mail.lines.is_empty());
            }
        }
        for older in ["00 V 10", "00 V 00", "00 V 110", "00 v 11", "00 X 11"] {
            assert!(!mail(older.as_bytes()).unread, "{older}");
        }
    }

    #[test]
    fn a_member_has_nine_fields() {
        assert!(kept(GOOD));
        for bad in [
            "00 M",
            "00 M ",
            "00 M A B C 1 D 1 \"\" z",
            "00 M A B C 1 D 1 \"\" z \"",
            "00 M A B C 1 D \"\" z \"\"",
        ] {
            assert!(!kept(bad), "{bad}");
        }
        assert!(
            !kept(&format!("{GOOD} ")) && !kept(&format!("{GOOD}x")) && !kept(&format!("{GOOD} x"))
        );
        for place in GOOD.match_indices(' ').skip(2).map(|(place, _)| place) {
            for other in ["", "  ", "\t"] {
                let changed = format!("{}{other}{}", &GOOD[..place], &GOOD[place + 1..]);
                assert!(!kept(&changed), "{changed}");
            }
        }
    }

    #[test]
    fn fields_of_a_member_follow_01() {
        assert!(
            with(" A", " ABCDEF")
                && !with(" A", " ABCDEFG")
                && !with(" A", " A.B")
                && !with(" A", " A@B")
                && !with(" A", " ")
        );
        assert!(
            with(" B", " ABCDEF.#B.C")
                && !with(" B", " ABCDEFG")
                && !with(" B", " B.")
                && !with(" B", " B@C")
        );
        assert!(with(" D", " ABCDEF.#B.C") && !with(" D", " ABCDEFG") && !with(" D", " "));
        assert!(
            with(" C", " 123456789012")
                && !with(" C", " 1234567890123")
                && with(" C", " \"")
                && with(" C", " é")
        );
        assert!(!with(" C", " \x1F"));
    }

    #[test]
    fn numbers_have_1_to_10_digits() {
        for place in ["1 D", "1 \"\""] {
            let rest = &place[1..];
            for digits in 1..=10 {
                assert!(with(place, &format!("{}{rest}", "9".repeat(digits))));
                assert!(with(place, &format!("{}{rest}", "0".repeat(digits))));
            }
            for bad in ["", "99999999999", "00000000000", "-1", "+1", "1.", "a"] {
                assert!(!with(place, &format!("{bad}{rest}")), "{bad}");
            }
        }
        let most = GOOD.replace(" 1 ", " 9999999999 ");
        assert!(matches!(
            line(most.as_bytes()),
            Line::Member(Member { stamp: 9_999_999_999, hops: 9_999_999_999, .. })
        ));
    }

    #[test]
    fn texts_hold_no_quote_and_a_zip_no_space() {
        for town in ["\"a b\"", "\"  \"", "\"é\"", "\"\t\""] {
            assert!(kept(&GOOD.replace("\"\"", town)), "{town}");
        }
        for zip in ["\"", "\"\"", "a\"b", "?", "\t", "1234567890123456789"] {
            assert!(with("z", zip), "{zip}");
        }
        for zip in ["", " ", "a b", " a", "a "] {
            assert!(!with("z", zip), "{zip}");
        }
        for text in ["", "a", "\"", "\"\"\"", "\"a\"b\"", "'a'"] {
            assert!(!with("\"\" z", &format!("{text} z")), "{text}");
            assert!(!with("z \"\"", &format!("z {text}")), "{text}");
        }
    }

    #[test]
    fn dates_of_the_request() {
        assert_eq!(seconds(b"990215"), Ok(918_950_400));
        assert_eq!(seconds(b"700101"), Ok(-86_400));
        assert_eq!(seconds(b"691231"), Ok(3_155_587_200));
        assert_eq!(date(918_950_400), Ok(*b"990214"));
        assert_eq!(date(918_950_400 + 86_399), Ok(*b"990214"));
        assert_eq!((date(0), date(-1)), (Ok(*b"700101"), Err(OUT_OF_RANGE)));
        assert_eq!((date(3_155_759_999), date(3_155_760_000)), (Ok(*b"691231"), Err(OUT_OF_RANGE)));
        assert_eq!((date(i64::MIN), date(i64::MAX)), (Err(OUT_OF_RANGE), Err(OUT_OF_RANGE)));
        for bad in [
            "", "99021", "9902155", "990229", "990931", "991301", "990001", "990100", "99021a",
            " 90215",
        ] {
            assert_eq!(seconds(bad.as_bytes()), Err(BAD_DATE), "{bad}");
        }
        assert_eq!(seconds(b"000229"), Ok(951_782_400 - 86_400));
    }

    #[test]
    fn there_and_back_moves_each_date_one_day_but_the_first() {
        let mut before = None;
        for date_of_day in months().flat_map(|(year, month, days)| {
            (1..=days).map(move |day| format!("{:02}{month:02}{day:02}", year % 100))
        }) {
            let back = seconds(date_of_day.as_bytes()).and_then(date);
            match before {
                None => assert_eq!(back, Err(OUT_OF_RANGE)),
                Some(day_before) => assert_eq!(back, Ok(day_before)),
            }
            before = Some(date_of_day.into_bytes().try_into().unwrap());
        }
    }
}
