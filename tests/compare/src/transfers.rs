//! Transfers in portions: the library, the second implementation's reader in
//! portions and its reader of the whole, held to each other.

use crate::lent::Lent;
use crate::report::{same, same_bytes, Checked, Difference, Input};
use crate::run::Run;
use compare::random::Random;
use compare::words::Transfer;
use second::field::HEADING_MAX;
use second::sid::Mode;
use second::transfer::reader::Reader;
use second::transfer::whole::{read_framed, read_plain};
use second::transfer::Outcome;

const START: &str = "words_transfer_start";
const PLAIN: &str = "words_transfer_feed, plain";
const FRAMED: &str = "words_transfer_feed, framed";
const WHOLE: &str = "(whole reader and portions)";

/// One transfer and how it comes.
pub struct Case<'a> {
    /// 0 plain, any other number framed.
    pub form: u8,
    pub bytes: &'a [u8],
    pub store: usize,
    /// Lengths of the portions, one after another, then the rest.
    pub portions: Vec<usize>,
}

impl Case<'_> {
    fn mode(&self) -> Mode {
        match self.form {
            0 => Mode::Plain,
            _ => Mode::Framed,
        }
    }

    fn function(&self) -> &'static str {
        match self.mode() {
            Mode::Plain => PLAIN,
            Mode::Framed => FRAMED,
        }
    }

    fn input(&self, fed: usize) -> Input {
        Input::new()
            .number("form", self.form)
            .number("store size", self.store)
            .number("portions", format!("{:?}, then the rest", self.portions))
            .number("bytes fed so far", fed)
            .bytes("transfer", self.bytes)
    }
}

pub fn number(outcome: Outcome) -> u8 {
    match outcome {
        Outcome::More => 0,
        Outcome::Whole => 1,
        Outcome::Refused(refusal) => refusal.number(),
    }
}

/// Both readers with what is lent to each.
struct Pair {
    library: Transfer,
    heading: Lent,
    store: Lent,
    second: Reader,
    second_heading: Lent,
    second_store: Lent,
}

impl Pair {
    fn new(random: &mut Random, case: &Case<'_>) -> Pair {
        let heading = Lent::new(random, HEADING_MAX);
        let store = Lent::new(random, case.store);
        Pair {
            library: Transfer::start(case.form),
            second: Reader::new(case.mode()),
            second_heading: heading.clone(),
            second_store: store.clone(),
            heading,
            store,
        }
    }

    /// Feeds one portion to both and compares all that they leave.
    fn feed(
        &mut self,
        case: &Case<'_>,
        portion: &[u8],
        fed: usize,
    ) -> Result<(usize, Outcome), Difference> {
        let (heading, store) = (self.heading.array(), self.store.part());
        let library_outcome = self.library.feed(portion, heading, store);
        let library = Said {
            outcome: library_outcome,
            consumed: self.library.consumed(),
            heading: self.library.heading_length(),
            body: self.library.body_length(),
            marks_stand: self.library.marks_stand(),
        };
        let (taken, outcome) = self.second.feed(portion, self.second_store.part());
        let second = Said {
            outcome: number(outcome),
            consumed: taken as u64,
            heading: self.second.heading().len() as u64,
            body: self.second.body_length() as u64,
            marks_stand: true,
        };
        let input = || case.input(fed + portion.len());
        same(case.function(), library, second, input)?;
        self.same_buffers(case, input)?;
        Ok((taken, outcome))
    }

    /// Heading and store, margins included: no byte but those of the heading
    /// and the body so far has changed.
    fn same_buffers(&mut self, case: &Case<'_>, input: impl Fn() -> Input) -> Checked {
        let heading = self.second.heading();
        self.second_heading.part()[..heading.len()].copy_from_slice(heading);
        let function = case.function();
        let (library, second) = (self.heading.all(), self.second_heading.all());
        same_bytes(function, "heading (from 16 bytes in front of it)", library, second, &input)?;
        let (library, second) = (self.store.all(), self.second_store.all());
        same_bytes(function, "store (from 16 bytes in front of it)", library, second, &input)
    }

    /// The whole reader must say what the portions said.
    fn ended(&mut self, case: &Case<'_>, fed: usize, outcome: Outcome) -> Checked {
        let whole = match case.mode() {
            Mode::Plain => read_plain(case.bytes, case.store),
            Mode::Framed => read_framed(case.bytes, case.store),
        };
        let input = || case.input(fed);
        let said = (whole.outcome, whole.consumed);
        same(WHOLE, (outcome, fed), said, input)?;
        let heading = self.second.heading();
        same_bytes(WHOLE, "heading", heading, whole.heading, input)?;
        let body = &self.second_store.part()[..self.second.body_length()];
        same_bytes(WHOLE, "body", body, &whole.body, input)
    }
}

/// What a feed says.
#[derive(Debug, PartialEq)]
struct Said {
    outcome: u8,
    consumed: u64,
    heading: u64,
    body: u64,
    /// Nothing beside the library's eight numbers is changed.
    marks_stand: bool,
}

/// Compares one transfer, portion by portion.
pub fn check(run: &mut Run, case: &Case<'_>) -> Checked {
    for function in [START, case.function(), WHOLE] {
        run.tally.count(function);
    }
    let mut pair = Pair::new(&mut run.random, case);
    let fresh = (pair.library.heading_length(), pair.library.body_length());
    same(START, fresh, (0, 0), || case.input(0))?;
    let mut fed = 0;
    for &length in case.portions.iter().chain(&[case.bytes.len()]) {
        let end = case.bytes.len().min(fed + length);
        let (taken, outcome) = pair.feed(case, &case.bytes[fed..end], fed)?;
        fed += taken;
        if outcome != Outcome::More {
            return pair.ended(case, fed, outcome);
        }
    }
    pair.ended(case, fed, Outcome::More)
}
