//! Headers: real ones, one for each limit, and random ones with damage.

use inputs::random::Random;
use second::route::Ours;
use std::fs;
use std::path::Path;

/// 003's own lines and each rule at, below and above its limit.
pub fn fixed() -> Vec<Vec<u8>> {
    let mut lines: Vec<String> = [
        "R:930108/1729 @:N6QMY.#NOCAL.CA.USA.NA Fremont #:1114 Z:94536",
        "R:930108/1259 1530@KA6FUB.#NOCAL.CA.USA.NA",
        "R:930107/1638z @:WD6CMU.#NOCAL.CA.USA.NA \"OSKbox\" #:10576 Z:94805",
        "R:930107/1045 50724@WX3K.#NOCAL.CA.USA.NA",
        "R:930101/0000 1530@KA6FUB.#NOCAL.CA.USA.NOAM",
        "R:930101/0000 @:KA6FUB.#NOCAL.CA.USA.NOAM #:1530",
        "",
        "R",
        "R:",
        "r:930101/0000 1@A",
        "R:930101-0000 1@A",
        "R:930101/0000",
        "R:930101/000",
        "R:930101/00001@A",
        "R:930101/0000\t1@A",
        "R:930101/0000 \t 1@A",
        "R:930101/0000 1@A\t",
        "R:930101/0000 1@A ",
        "R:930101/0000 1@ A",
        "R:930101/0000 1 @A",
        "R:930101/0000 @:A #:1",
        "R:930101/0000 @:A#:1",
        "R:930101/0000 @:A ##:1",
        "R:930101/0000 @:A #:x #:1",
        "R:930101/0000 @:A #:1 #:x",
        "R:930101/0000 @:A #:",
        "R:930101/0000 @:A #",
        "R:930101/0000 @: #:1",
        "R:930101/0000 @A #:1",
        "R:930101/0000 1@:A",
    ]
    .iter()
    .map(|line| line.to_string())
    .collect();
    for zone in 0u8..128 {
        lines.push(format!("R:930101/0000{} 1@A", char::from(zone)));
        lines.push(format!("R:930101/0000z{}1@A", char::from(zone)));
    }
    for digits in 0..12 {
        let number = "9".repeat(digits);
        lines.push(format!("R:930101/0000 {number}@A"));
        lines.push(format!("R:930101/0000 @:A #:{number}"));
        lines.push(format!("R:930101/0000 {}@A", "0".repeat(digits)));
    }
    // parts of 6 and 7 bytes, 31 and 32 bytes after the first point, 38 and 39 in all
    let six = "ABCDEF";
    for tail in ["G", "GH", "GHI", "GHIJ", "GHIJK", "GHIJKL", "GHIJKLM"] {
        let parts = [six, six, six, six, six].join(".");
        lines.push(format!("R:930101/0000 1@{parts}.{tail}"));
        lines.push(format!("R:930101/0000 1@{tail}.{six}.{six}.{six}.{six}.ABC"));
        lines.push(format!("R:930101/0000 1@{tail}.{six}.{six}.{six}.{six}.ABCD"));
        lines.push(format!("R:930101/0000 1@{tail}"));
    }
    for (hour, minute) in [(0, 0), (23, 59), (24, 0), (0, 60), (99, 99)] {
        lines.push(format!("R:930101/{hour:02}{minute:02}Z 1@A"));
    }
    lines.into_iter().map(String::into_bytes).collect()
}

/// Every year of two digits with every month and day of two digits.
pub fn dates() -> impl Iterator<Item = Vec<u8>> {
    (0..1_000_000u32)
        .filter(|date| date / 100 % 100 < 14 && date % 100 < 33)
        .map(|date| format!("R:{date:06}/1200z 7@A").into_bytes())
}

/// The `R:` lines that a real LinFBB sent, in the captures.
pub fn real() -> Vec<Vec<u8>> {
    let folder = Path::new(env!("CARGO_MANIFEST_DIR")).join("../peers/captures");
    let mut lines = Vec::new();
    for entry in fs::read_dir(folder).expect("captures") {
        let text = fs::read_to_string(entry.expect("capture").path()).unwrap_or_default();
        let mut sent = Vec::new();
        let mut peer = false;
        for line in text.lines() {
            if line.contains("\"dir\"") {
                peer = line.contains("peer>us");
            } else if let (true, Some(hex)) = (peer, line.split("\"hex\": \"").nth(1)) {
                let hex: Vec<u8> = hex.bytes().take_while(u8::is_ascii_hexdigit).collect();
                sent.extend(hex.chunks(2).map(|pair| {
                    u8::from_str_radix(&String::from_utf8_lossy(pair), 16).expect("hex")
                }));
            }
        }
        lines.extend(
            sent.split(|&byte| byte == b'\r' || byte == b'\n')
                .filter(|line| line.starts_with(b"R:"))
                .map(<[u8]>::to_vec),
        );
    }
    lines
}

fn date(random: &mut Random) -> (u16, u8, u8) {
    (random.within(1970, 2069) as u16, random.within(1, 12) as u8, random.within(1, 31) as u8)
}

/// A header in either form, as often as not a valid one.
pub fn header(random: &mut Random) -> Vec<u8> {
    let (year, month, day) = date(random);
    let zone = random.pick(&["", "z", "Z", "e", "zz"]);
    let white = random.pick(&[" ", " ", "  ", "\t", ""]);
    let mut line = format!(
        "R:{:02}{month:02}{day:02}/{:02}{:02}{zone}{white}",
        year % 100,
        random.within(0, 24),
        random.within(0, 60)
    )
    .into_bytes();
    let digits = random.within(1, 10);
    let number: String = (0..digits).map(|_| char::from(b'0' + random.below(10) as u8)).collect();
    let mailbox = inputs::at(random);
    if random.once_in(2) {
        line.extend(number.bytes());
        line.push(b'@');
        line.extend(mailbox);
    } else {
        line.extend(b"@:");
        line.extend(mailbox);
        line.extend(random.pick(&[" ", " Town ", " [#] ", "", " #:x "]).bytes());
        line.extend(b"#:");
        line.extend(number.bytes());
    }
    line.extend(random.pick(&["", "", " Z:94536", " remarks @ #:", "\t"]).bytes());
    line
}

/// A body of some headers and a text, its lines ended by CR or CR LF; one in two is damaged.
pub fn body(random: &mut Random, real: &[Vec<u8>]) -> Vec<u8> {
    let mut body = Vec::new();
    for _ in 0..random.below(5) {
        let line =
            if random.once_in(8) { real[random.below(real.len())].clone() } else { header(random) };
        body.extend(line);
        body.extend(random.pick(&["\r", "\r", "\r\n", "\r\n\n", ""]).bytes());
    }
    if random.once_in(2) {
        let length = random.below(40);
        body.extend(inputs::bytes(random, length));
    }
    if random.once_in(2) {
        inputs::damage(random, &mut body);
    }
    body
}

/// What the writer is given: mostly valid.
pub fn ours(random: &mut Random) -> Ours {
    let (mut year, month, day) = date(random);
    if random.once_in(16) {
        year = random.pick(&[0, 70, 99, 1969, 1970, 2069, 2070, 65_535]);
    }
    let mut mailbox = inputs::at(random);
    if random.once_in(16) {
        inputs::damage(random, &mut mailbox);
    }
    Ours {
        year,
        month: if random.once_in(16) { random.pick(&[0, 13, 255]) } else { month },
        day: if random.once_in(16) { random.pick(&[0, 32, 255]) } else { day },
        hour: random.within(0, 24) as u8,
        minute: random.within(0, 60) as u8,
        number: if random.once_in(4) {
            random.pick(&[0, 9, 10, 999_999_999, 1_000_000_000, u32::MAX])
        } else {
            random.number() as u32 % 1_000_000_000
        },
        mailbox,
    }
}
