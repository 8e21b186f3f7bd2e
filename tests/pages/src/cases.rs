//! Mails to read: 004's own, one for each limit, and random ones with damage.

use inputs::random::Random;

/// 004's sample mail.
pub const SAMPLE: &[u8] = b"R:990407/0944z @:OE3DZW.#OE3.AUT.EU [BayCom-Mailbox] Bcm1.40P\r\
    \r\
    D7 V 10\r\
    68 B OE3DZW.#OE3.AUT.EU 10 0 DL8MBT AX25 OE3DZW-8 923478289 1\r\
    5C M OE3DZW OE3DZW.#OE3.AUT.EU 749OE3DZW004 923471053 OE3DZW 1 \"Dietmar\" ? \"?\"\r\
    00 E WW OE3DZW F29OE3DZW007 F29OE3DZW006 OE3DZW 1 \"#E\"\r";

/// A member line, its parts as they are given.
fn member(parts: [&str; 9]) -> String {
    format!("00 M {}", parts.join(" "))
}

const GOOD: [&str; 9] = ["A", "B", "C", "1", "D", "1", "\"\"", "z", "\"\""];

/// What stands in each place of a member in turn: each rule at, below and above its limit.
const WORDS: [&str; 44] = [
    "",
    " ",
    "\t",
    "A",
    "ABCDEF",
    "ABCDEFG",
    "A.B",
    "A.",
    ".A",
    "A@",
    "ABCDEF.ABCDEF.ABCDEF.ABCDEF.ABCDEF.ABC",
    "ABCDEF.ABCDEF.ABCDEF.ABCDEF.ABCDEF.ABCD",
    "A.ABCDEF.ABCDEF.ABCDEF.ABCDEF.ABC",
    "A.ABCDEF.ABCDEF.ABCDEF.ABCDEF.ABCD",
    "123456789012",
    "1234567890123",
    "1",
    "0",
    "9999999999",
    "99999999999",
    "0000000000",
    "00000000000",
    "4294967295",
    "4294967296",
    "-1",
    "1a",
    "\"",
    "\"\"",
    "\"a\"",
    "\"a b\"",
    "\" \"",
    "\"a\"b\"",
    "a\"b",
    "a\"",
    "\"a",
    "\"a\"b",
    "\"\"\"",
    "''",
    "a b",
    "é",
    "\"é\"",
    "\u{1}",
    "\"\u{1}\"",
    "\n",
];

/// 004's own lines, and each rule at, below and above its limit.
pub fn fixed() -> Vec<Vec<u8>> {
    let mut lines: Vec<String> = [
        "",
        "\n",
        "\n\n",
        "00",
        "00 ",
        "00 X",
        "00 X ",
        "00  ",
        "00  X ",
        "0 X ",
        "000 X ",
        " 00 X ",
        "00 X  ",
        "00\tX ",
        "00 0123456789 ",
        "00 0123456789A ",
        "00 V",
        "00 V ",
        "00 v 11",
        "00 m ",
        "00 VV 11",
        "00 M",
        "00 M ",
        "48 M OE3DZW OE3DZW.#OE3.AUT.EU F29OE3DZW004 919094319 OE3DZW 1 \"Dietmar\" ? \"?\"",
        "2F E WW OE3DZW F29OE3DZW007 F29OE3DZW006 OE3DZW 1 \"#E\"",
    ]
    .iter()
    .map(|line| line.to_string())
    .collect();
    for byte in 0u8..128 {
        let sign = char::from(byte);
        lines.extend([
            format!("{sign}0 X "),
            format!("0{sign} X "),
            format!("00{sign}X "),
            format!("00 {sign} "),
        ]);
        lines.extend([
            format!("00 X{sign}"),
            format!("00 V {sign}0"),
            format!("00 V 1{sign}"),
            format!("00 V 10{sign}"),
        ]);
    }
    for word in WORDS {
        lines.extend((0..GOOD.len()).map(|place| {
            let mut parts = GOOD;
            parts[place] = word;
            member(parts)
        }));
        lines.extend([format!("{}{word}", member(GOOD)), format!("{} {word}", member(GOOD))]);
        lines.extend([format!("00 V {word}"), format!("00 {word} "), format!("{word} X ")]);
    }
    lines.extend((0..=GOOD.len()).map(|count| format!("00 M {}", GOOD[..count].join(" "))));
    for digits in 1..12 {
        for digit in ["0", "1", "9"] {
            let number = digit.repeat(digits);
            lines.push(member(["A", "B", "C", &number, "D", &number, "\"\"", "z", "\"\""]));
        }
    }
    lines.into_iter().map(String::into_bytes).collect()
}

/// Every version in front of, behind and between other lines.
pub fn versions() -> impl Iterator<Item = Vec<u8>> {
    let around = [
        ("", ""),
        ("", "\r"),
        ("00 V 10\r", "\rbad\r"),
        ("bad\r\n", "\r\n00 V 00"),
        ("\r", "\r\r"),
    ];
    around.into_iter().flat_map(|(front, back)| {
        (0..112).map(move |version| format!("{front}00 V {version:02}{back}").into_bytes())
    })
}

fn digits(random: &mut Random, length: usize) -> Vec<u8> {
    (0..length).map(|_| b'0' + random.below(10) as u8).collect()
}

/// Bytes of a name or a town: no quote, no CR.
fn text(random: &mut Random) -> Vec<u8> {
    let length = random.below(12);
    let mut text = inputs::bytes(random, length);
    text.retain(|byte| !b"\"\r".contains(byte));
    text
}

/// Now and then no field of any kind.
fn field(random: &mut Random, good: Vec<u8>) -> Vec<u8> {
    match random.below(40) {
        0 => random.pick(&WORDS).as_bytes().to_vec(),
        _ => good,
    }
}

fn member_data(random: &mut Random) -> Vec<u8> {
    let number = |random: &mut Random| {
        let length = random.within(1, 11);
        digits(random, length)
    };
    let quoted = |random: &mut Random| [b"\"".to_vec(), text(random), b"\"".to_vec()].concat();
    let zip = |random: &mut Random| {
        let length = random.within(1, 8);
        digits(random, length)
    };
    let fields = [
        inputs::call(random),
        inputs::at(random),
        inputs::bid(random),
        number(random),
        inputs::at(random),
        number(random),
        quoted(random),
        zip(random),
        quoted(random),
    ];
    let fields = fields.map(|good| field(random, good));
    fields.join(&b" "[..])
}

/// A line that mostly is a record.
fn line(random: &mut Random) -> Vec<u8> {
    let mut line = format!("{:02X} ", random.byte()).into_bytes();
    if random.once_in(2) {
        line.make_ascii_lowercase();
    }
    match random.below(8) {
        0 => {
            let version = random.pick(&["10", "10", "09", "00", "1", "1O", "10", "11"]);
            line.extend([b"V ", version.as_bytes()].concat());
        }
        1 => {
            let flag = random.pick(&["B", "E", "v", "m", "MM", "0123456789", "0123456789A", ""]);
            line.extend([flag.as_bytes(), b" ", &text(random)].concat());
        }
        2 if random.once_in(4) => {
            let length = random.below(30);
            line = inputs::bytes(random, length);
        }
        _ => line.extend([b"M ".to_vec(), member_data(random)].concat()),
    }
    line
}

/// A mail of some lines, ended by CR or CR LF; one in two is damaged.
pub fn mail(random: &mut Random) -> Vec<u8> {
    let mut mail = Vec::new();
    for _ in 0..random.below(8) {
        mail.extend(line(random));
        mail.extend(random.pick(&["\r", "\r", "\r", "\r\n", "\r\n\n", ""]).bytes());
    }
    if random.once_in(2) {
        inputs::damage(random, &mut mail);
    }
    mail
}
