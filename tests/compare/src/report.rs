//! What is counted, and what is said about a difference.

use std::fmt::{self, Debug, Display};

/// A check's end: no difference, or the first one.
pub type Checked = Result<(), Difference>;

/// Longer inputs are printed by their two ends.
const PRINTED: usize = 1024;

/// The inputs of one call, written out for a person.
#[derive(Debug, Default)]
pub struct Input {
    text: String,
}

impl Input {
    pub fn new() -> Input {
        Input::default()
    }

    pub fn number(mut self, name: &str, value: impl Display) -> Input {
        self.text += &format!("  {name}: {value}\n");
        self
    }

    pub fn bytes(mut self, name: &str, bytes: &[u8]) -> Input {
        self.text += &format!("  {name}: {} bytes\n", bytes.len());
        if bytes.len() <= PRINTED {
            self.lines(bytes)
        } else {
            let half = PRINTED / 2;
            let mut cut = self.lines(&bytes[..half]);
            cut.text += &format!("    ... {} bytes left out ...\n", bytes.len() - PRINTED);
            cut.lines(&bytes[bytes.len() - half..])
        }
    }

    fn lines(mut self, bytes: &[u8]) -> Input {
        self.text += &format!("    hex     {}\n", hex(bytes));
        self.text += &format!("    escaped \"{}\"\n", bytes.escape_ascii());
        self
    }
}

/// One input on which the two implementations do not agree.
#[derive(Debug)]
pub struct Difference {
    function: &'static str,
    input: Input,
    library: String,
    second: String,
}

impl Display for Difference {
    fn fmt(&self, f: &mut fmt::Formatter<'_>) -> fmt::Result {
        writeln!(f, "difference in {}", self.function)?;
        write!(f, "{}", self.input.text)?;
        writeln!(f, "  library: {}", self.library)?;
        write!(f, "  second:  {}", self.second)
    }
}

pub fn hex(bytes: &[u8]) -> String {
    let digits: Vec<String> = bytes.iter().map(|byte| format!("{byte:02X}")).collect();
    digits.join(" ")
}

/// Holds the library's answer to the second implementation's.
pub fn same<T: PartialEq + Debug>(
    function: &'static str,
    library: T,
    second: T,
    input: impl FnOnce() -> Input,
) -> Checked {
    if library == second {
        return Ok(());
    }
    Err(Difference {
        function,
        input: input(),
        library: format!("{library:?}"),
        second: format!("{second:?}"),
    })
}

/// Holds two buffers to each other and says where they part. Those that were
/// lent come with their margins, so their first byte has place 16.
pub fn same_bytes(
    function: &'static str,
    what: &str,
    library: &[u8],
    second: &[u8],
    input: impl FnOnce() -> Input,
) -> Checked {
    if library == second {
        return Ok(());
    }
    let shared = library.iter().zip(second).take_while(|(a, b)| a == b);
    let place = shared.count();
    let said = |bytes: &[u8]| {
        let near = &bytes[place.min(bytes.len())..bytes.len().min(place + 16)];
        format!("{what}, {} bytes, from byte {place} on: {}", bytes.len(), hex(near))
    };
    Err(Difference { function, input: input(), library: said(library), second: said(second) })
}

/// How many inputs went through each function.
#[derive(Debug, Default)]
pub struct Tally {
    rows: Vec<(&'static str, u64)>,
}

impl Tally {
    pub fn count(&mut self, function: &'static str) {
        match self.rows.iter_mut().find(|(name, _)| *name == function) {
            Some((_, count)) => *count += 1,
            None => self.rows.push((function, 1)),
        }
    }

    pub fn total(&self) -> u64 {
        self.rows.iter().map(|(_, count)| count).sum()
    }
}

impl Display for Tally {
    fn fmt(&self, f: &mut fmt::Formatter<'_>) -> fmt::Result {
        for (name, count) in &self.rows {
            writeln!(f, "{name:<32} {count:>9}")?;
        }
        Ok(())
    }
}
