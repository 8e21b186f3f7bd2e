//! 01's examples that are not proved, as far as words go, on both
//! implementations.

use crate::rounds::written;
use compare::words;
use second::line::{self, Step};
use second::proposal::{self, TurnLine};
use second::sid::{self, Feature, FeatureSet, Mode};

/// The words that the examples need, by the numbers of the C interface.
trait Words {
    fn name(&self) -> &'static str;
    fn line_byte(&self, after_cr: bool, length: usize, byte: u8) -> u8;
    fn trimmed(&self, line: &[u8]) -> usize;
    /// The number, and whether the mode is framed.
    fn sid(&self, line: &[u8]) -> (u8, bool);
    fn turn_line(&self, line: &[u8], framed: bool) -> u8;
    fn fixed(&self, which: u8) -> Vec<u8>;
}

struct Library;

impl Words for Library {
    fn name(&self) -> &'static str {
        "library"
    }

    fn line_byte(&self, after_cr: bool, length: usize, byte: u8) -> u8 {
        words::line_byte(after_cr.into(), length, byte)
    }

    fn trimmed(&self, line: &[u8]) -> usize {
        words::trimmed(line)
    }

    fn sid(&self, line: &[u8]) -> (u8, bool) {
        let mut levels = [0; FeatureSet::PLACES];
        let number = words::read_sid(line, &mut levels);
        (number, levels[1] != 0)
    }

    fn turn_line(&self, line: &[u8], framed: bool) -> u8 {
        words::read_turn_line(line, framed.into(), &mut [0; 11])
    }

    fn fixed(&self, which: u8) -> Vec<u8> {
        written(20, |room| words::write_fixed(which, room))
    }
}

struct Second;

impl Words for Second {
    fn name(&self) -> &'static str {
        "second"
    }

    fn line_byte(&self, after_cr: bool, length: usize, byte: u8) -> u8 {
        match line::step(after_cr, length, byte) {
            Ok(Step::Dropped) => 0,
            Ok(Step::End) => 1,
            Ok(Step::More) => 2,
            Err(_) => 3,
        }
    }

    fn trimmed(&self, line: &[u8]) -> usize {
        line::trimmed(line).len()
    }

    fn sid(&self, line: &[u8]) -> (u8, bool) {
        match sid::judge(line) {
            Ok(set) => (0, set.has(Feature::FRAMED)),
            Err(refusal) => (refusal.number(), false),
        }
    }

    fn turn_line(&self, line: &[u8], framed: bool) -> u8 {
        let mode = if framed { Mode::Framed } else { Mode::Plain };
        match proposal::read(line, mode) {
            Ok(TurnLine::Nothing) => 0,
            Ok(TurnLine::Quit) => 1,
            Ok(TurnLine::BlockEnd) => 2,
            Ok(TurnLine::Proposal(_)) => 3,
            Ok(TurnLine::SummedEnd(_)) => 4,
            Err(refusal) => refusal.number(),
        }
    }

    fn fixed(&self, which: u8) -> Vec<u8> {
        match which {
            0 => [sid::OURS, b"\r"].concat(),
            1 => b">\r".to_vec(),
            _ => proposal::write(&TurnLine::Quit),
        }
    }
}

/// The lines of a stream, trimmed; `Err` with the number of bytes consumed
/// where refusal 2 comes.
fn lines(words: &dyn Words, stream: &[u8]) -> Result<Vec<Vec<u8>>, usize> {
    let mut lines = Vec::new();
    let mut line = Vec::new();
    let mut after_cr = false;
    for (place, &byte) in stream.iter().enumerate() {
        match words.line_byte(after_cr, line.len(), byte) {
            0 => {}
            1 => {
                line.truncate(words.trimmed(&line));
                lines.push(std::mem::take(&mut line));
            }
            2 => line.push(byte),
            _ => return Err(place + 1),
        }
        after_cr = byte == line::CR;
    }
    Ok(lines)
}

/// A proposal and spaces, so many bytes in all, and CR.
fn long_line(length: usize) -> Vec<u8> {
    let mut line = b"FB P F6FBB FC1GHV FC1MVP 24657_F6FBB 1345".to_vec();
    line.resize(length, b' ');
    line.push(line::CR);
    line
}

/// "256 bytes then CR: judged; 257: refusal 2."
fn long_lines(words: &dyn Words) -> bool {
    let judged = lines(words, &long_line(256)).map(|lines| words.turn_line(&lines[0], false));
    let refused = lines(words, &long_line(257)).map(|_| ());
    println!(
        "  256 bytes then CR: {}",
        match judged {
            Ok(3) => "judged, a valid proposal",
            Ok(_) => "judged, but no proposal",
            Err(_) => "refused",
        }
    );
    match refused {
        Ok(()) => println!("  257 bytes: judged"),
        Err(place) => println!("  257 bytes: refusal 2 at byte {place}"),
    }
    judged == Ok(3) && refused == Err(257)
}

/// "Whole session, called, empty table."
fn session(words: &dyn Words) -> bool {
    let received = b"[TST-1-F$]\rFF\r";
    let mut out = [words.fixed(0), words.fixed(1)].concat();
    let lines = match lines(words, received) {
        Ok(lines) => lines,
        _ => return false,
    };
    let (first, turn) = match &lines[..] {
        [first, turn] => (first, turn),
        _ => return false,
    };
    let (number, framed) = words.sid(first);
    let said = words.turn_line(turn, framed);
    // FF to an end with nothing to propose: "FQ if the partner's turn just now
    // was FF".
    if (number, framed, said) == (0, false, 0) {
        out.extend(words.fixed(3));
    }
    println!("  in  \"{}\"", received.escape_ascii());
    println!("  out \"{}\"", out.escape_ascii());
    out == b"[NOD-1-B1FH$]\r>\rFQ\r"
}

/// Prints and checks the examples. True if all are as 01 has them.
pub fn run() -> bool {
    let mut all = true;
    for words in [&Library as &dyn Words, &Second] {
        println!("{}", words.name());
        let right = [long_lines(words), session(words)];
        all &= right == [true, true];
    }
    println!("examples: {}", if all { "all as in 01" } else { "NOT as in 01" });
    all
}
