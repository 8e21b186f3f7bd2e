//! The SID: what the partner's mailbox can do.

use crate::refusal::Refusal;

/// Our own SID.
pub const OURS: &[u8] = b"[NOD-1-B1FH$]";

/// A feature: a letter, or `$`.
///
/// "Letters have fixed places A = 0 to Z = 25, and `$` = 26."
#[derive(Clone, Copy, Debug, PartialEq, Eq)]
pub struct Feature(u8);

impl Feature {
    pub const FRAMED: Feature = Feature(1); // B
    pub const FORWARDING: Feature = Feature(5); // F
    pub const HIERARCHY: Feature = Feature(7); // H
    pub const BID: Feature = Feature(26); // $

    /// "feature letters are taken in either case"
    pub fn letter(byte: u8) -> Option<Feature> {
        let capital = byte.to_ascii_uppercase();
        capital.is_ascii_uppercase().then(|| Feature(capital - b'A'))
    }
}

/// How transfers go in this session.
#[derive(Clone, Copy, Debug, PartialEq, Eq)]
pub enum Mode {
    Plain,
    Framed,
}

/// Which signs the partner may answer with.
#[derive(Clone, Copy, Debug, PartialEq, Eq)]
pub enum Level {
    Zero,
    One,
}

impl Level {
    /// "the level in force is the lower of the two, 0 without B"
    pub fn in_force(ours: &FeatureSet, partner: &FeatureSet) -> Level {
        let level = |set: &FeatureSet| set.level(Feature::FRAMED).unwrap_or(0);
        Level::numbered(level(ours).min(level(partner)))
    }

    /// The level in force with a partner who shows this SID.
    pub fn with(partner: &FeatureSet) -> Level {
        let ours = read(OURS).expect("our SID is one");
        Level::in_force(&ours, partner)
    }

    /// 0 is level 0, any other number counts as 1 (DECISIONS 101).
    pub fn numbered(number: u8) -> Level {
        if number == 0 {
            Level::Zero
        } else {
            Level::One
        }
    }

    /// As it stands in session memory.
    pub fn number(self) -> u8 {
        match self {
            Level::Zero => 0,
            Level::One => 1,
        }
    }
}

/// The features of a SID, each with its level.
#[derive(Clone, Debug, Default, PartialEq, Eq)]
pub struct FeatureSet {
    levels: [Option<u8>; FeatureSet::PLACES],
}

impl FeatureSet {
    /// 26 letters and `$`.
    pub const PLACES: usize = 27;

    pub fn none() -> FeatureSet {
        FeatureSet::default()
    }

    /// Adds a feature. "House rule: a letter given twice is refused": `None`.
    fn add(&mut self, feature: Feature, level: u8) -> Option<()> {
        let place = &mut self.levels[usize::from(feature.0)];
        match place.replace(level) {
            None => Some(()),
            Some(_) => None,
        }
    }

    pub fn has(&self, feature: Feature) -> bool {
        self.level(feature).is_some()
    }

    pub fn level(&self, feature: Feature) -> Option<u8> {
        self.levels[usize::from(feature.0)]
    }

    /// Every level by place, A to Z and then `$`.
    pub fn levels(&self) -> &[Option<u8>; FeatureSet::PLACES] {
        &self.levels
    }

    /// "Partner has B: framed mode, at any level. Otherwise plain mode."
    pub fn mode(&self) -> Mode {
        if self.has(Feature::FRAMED) {
            Mode::Framed
        } else {
            Mode::Plain
        }
    }
}

/// "Author has at least one byte in 0x20-0x7F without `[`, `]`, `-`".
pub fn is_author_byte(byte: u8) -> bool {
    matches!(byte, 0x20..=0x7F) && !b"[]-".contains(&byte)
}

/// Data: "at least one such byte or hyphen".
pub fn is_data_byte(byte: u8) -> bool {
    is_author_byte(byte) || byte == b'-'
}

/// At least one byte, all of the class.
fn is_some_of(bytes: &[u8], class: fn(u8) -> bool) -> bool {
    !bytes.is_empty() && bytes.iter().all(|&byte| class(byte))
}

/// Reads a trimmed line as a SID.
///
/// "SID = `[` author `-` (data `-`)? features `$`? `]`. The author runs to the
/// first hyphen, the features start after the last."
pub fn read(line: &[u8]) -> Option<FeatureSet> {
    let inner = line.strip_prefix(b"[")?.strip_suffix(b"]")?;
    let first = inner.iter().position(|&byte| byte == b'-')?;
    let last = inner.iter().rposition(|&byte| byte == b'-')?;
    if !is_some_of(&inner[..first], is_author_byte) {
        return None;
    }
    // Two hyphens: what lies between them is data, and cannot be empty.
    if first < last && !is_some_of(&inner[first + 1..last], is_data_byte) {
        return None;
    }
    read_features(&inner[last + 1..])
}

/// "Features are one or more letters, each with at most one digit; no digit is
/// level 0."
fn read_features(text: &[u8]) -> Option<FeatureSet> {
    let mut set = FeatureSet::none();
    let mut rest = text;
    if let Some(letters) = text.strip_suffix(b"$") {
        set.add(Feature::BID, 0)?;
        rest = letters;
    }
    if rest.is_empty() {
        return None;
    }
    while let [letter, after @ ..] = rest {
        let feature = Feature::letter(*letter)?;
        rest = match after {
            [digit @ b'0'..=b'9', tail @ ..] => {
                set.add(feature, digit - b'0')?;
                tail
            }
            tail => {
                set.add(feature, 0)?;
                tail
            }
        };
    }
    Some(set)
}

/// Judges the partner's first line: 3 "first line isn't a valid SID", 4
/// "partner's SID has no F". DECISIONS 13: 3 goes before 4.
pub fn judge(line: &[u8]) -> Result<FeatureSet, Refusal> {
    let set = read(line).ok_or(Refusal::NoSid)?;
    if set.has(Feature::FORWARDING) {
        Ok(set)
    } else {
        Err(Refusal::NoForwarding)
    }
}

#[cfg(test)]
mod tests {
    use super::*;

    fn letter(byte: u8) -> Feature {
        Feature::letter(byte).unwrap()
    }

    #[test]
    fn examples_of_01() {
        assert!(read(b"[ZFJ-2.3-H$]").is_some());
        assert_eq!(judge(b"[ZFJ-2.3-H$]"), Err(Refusal::NoForwarding));
        let baycom = judge(b"[BayCom-1.40P-AB1D1FHMRW$]").unwrap();
        assert_eq!(baycom.mode(), Mode::Framed);
        assert_eq!(baycom.level(Feature::FRAMED), Some(1));
        assert_eq!(judge(b"[A--H]"), Err(Refusal::NoSid));
        assert_eq!(judge(b"[A-$]"), Err(Refusal::NoSid));
        assert_eq!(judge(b"[TST-1-F$]").unwrap().mode(), Mode::Plain);
    }

    #[test]
    fn our_sid_is_valid() {
        let ours = judge(OURS).unwrap();
        for feature in [Feature::FORWARDING, Feature::HIERARCHY, Feature::BID] {
            assert_eq!(ours.level(feature), Some(0));
        }
        assert_eq!(ours.level(Feature::FRAMED), Some(1));
    }

    #[test]
    fn the_lower_level_of_b_is_in_force() {
        let with = |partner: &[u8]| Level::with(&read(partner).unwrap()).number();
        assert_eq!(with(b"[A-F]"), 0);
        assert_eq!(with(b"[A-F9H1$]"), 0);
        assert_eq!(with(b"[A-BF]"), 0);
        assert_eq!(with(b"[A-B0F]"), 0);
        assert_eq!(with(b"[A-F1B]"), 0);
        assert_eq!(with(b"[A-AB1F]"), 1);
        assert_eq!(with(b"[A-Fb1]"), 1);
        assert_eq!(with(b"[A-B2F]"), 1);
        assert_eq!(with(b"[A-B9F]"), 1);
        let set = |line: &[u8]| read(line).unwrap();
        let in_force = |ours, theirs| Level::in_force(&set(ours), &set(theirs)).number();
        assert_eq!(in_force(b"[A-BF]", b"[A-B1F]"), 0);
        assert_eq!(in_force(b"[A-F]", b"[A-B1F]"), 0);
    }

    #[test]
    fn places_are_fixed() {
        assert_eq!(letter(b'A').0, 0);
        assert_eq!(letter(b'z').0, 25);
        assert_eq!(letter(b'b'), Feature::FRAMED);
        assert_eq!(letter(b'F'), Feature::FORWARDING);
        assert_eq!(letter(b'h'), Feature::HIERARCHY);
        assert_eq!(Feature::letter(b'$'), None);
        assert_eq!(Feature::letter(b'@'), None);
        assert_eq!(Feature::letter(b'['), None);
        assert_eq!(Feature::letter(b'{'), None);
    }

    #[test]
    fn author_runs_to_the_first_hyphen_and_features_follow_the_last() {
        assert!(read(b"[A-F]").is_some());
        assert!(read(b"[A---F]").is_some());
        assert!(read(b"[A-1-2-F]").is_some());
        assert!(read(b"[\x7F \t-F]").is_none());
        assert!(read(b"[\x7F -F]").is_some());
        assert!(read(b"[-F]").is_none());
        assert!(read(b"[-1-F]").is_none());
        assert!(read(b"[A--F]").is_none());
        assert!(read(b"[AF]").is_none());
        assert!(read(b"[A[-F]").is_none());
        assert!(read(b"[A-]-F]").is_none());
        assert!(read(b"[A-\x80-F]").is_none());
    }

    #[test]
    fn features_are_letters_with_at_most_one_digit() {
        let set = read(b"[A-b9F$]").unwrap();
        assert_eq!(set.level(letter(b'B')), Some(9));
        assert_eq!(set.level(letter(b'F')), Some(0));
        assert_eq!(set.level(Feature::BID), Some(0));
        assert_eq!(set.level(letter(b'A')), None);
        for bad in [&b"[A-]"[..], b"[A-F12]", b"[A-1F]", b"[A-$F]", b"[A-F$$]", b"[A-F$1]"] {
            assert_eq!(judge(bad), Err(Refusal::NoSid));
        }
    }

    #[test]
    fn a_letter_given_twice_is_refused_with_3() {
        for twice in [&b"[A-FF]"[..], b"[A-Ff]", b"[A-F1F2]", b"[A-HH]"] {
            assert_eq!(judge(twice), Err(Refusal::NoSid));
        }
    }

    #[test]
    fn brackets_are_needed() {
        for bad in [&b""[..], b"[", b"]", b"[]", b"A-F]", b"[A-F", b" [A-F]", b"[A-F] "] {
            assert_eq!(judge(bad), Err(Refusal::NoSid));
        }
    }
}
