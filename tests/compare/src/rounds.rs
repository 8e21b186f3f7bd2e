//! Round trips: what one implementation writes the other reads as the same
//! fields. "A proposal or transfer that we write reads back as the same fields
//! and the same bytes." (demand 2)

use crate::report::{same, same_bytes, Checked, Input};
use crate::run::Run;
use crate::turns::library_answer;
use crate::writers::form;
use compare::random::Random;
use compare::words::{self, Fields, Room, Transfer};
use second::field::BODY_MAX;
use second::proposal::{self, Proposal, TurnLine};
use second::record::{Form, Kind};
use second::sid::{self, Level, Mode};
use second::transfer::whole::{read_framed, read_plain};
use second::transfer::writer::Writer;
use second::transfer::Outcome;
use second::{fs, line};

const PROPOSAL: &str = "(round trip, proposal)";
const FS: &str = "(round trip, FS)";
const FIXED: &str = "(round trip, fixed lines)";
const PLAIN: &str = "(round trip, plain transfer)";
const FRAMED: &str = "(round trip, framed transfer)";

/// All that a writer of the library writes.
pub fn written(size: usize, write: impl FnOnce(Room<'_>) -> usize) -> Vec<u8> {
    let mut buffer = vec![0; size];
    let room = Room { buffer: &mut buffer, place: 0, skip: 0 };
    let count = write(room);
    buffer.truncate(count);
    buffer
}

/// The line without its CR; for a text with none, a line that no reader takes.
fn without_cr(text: &[u8]) -> &[u8] {
    text.strip_suffix(&[line::CR]).unwrap_or(b"no CR")
}

fn mode(form: Form) -> Mode {
    match form {
        Form::Plain => Mode::Plain,
        Form::Message | Form::File => Mode::Framed,
    }
}

pub fn proposals(run: &mut Run) -> Checked {
    run.tally.count(PROPOSAL);
    let random = &mut run.random;
    let kind = random.pick(&[Kind::Private, Kind::Bulletin]);
    let (from, at) = (inputs::call(random), inputs::at(random));
    let (to, bid) = (inputs::call(random), inputs::bid(random));
    let fields = Fields {
        form: random.below(3) as u8,
        kind: kind.byte(),
        from: &from,
        at: &at,
        to: &to,
        bid: &bid,
        size: random.below(1_000_000_000) as u32,
    };
    let proposal = Proposal {
        form: form(fields.form),
        kind,
        from: fields.from,
        at: fields.at,
        to: fields.to,
        bid: fields.bid,
        size: fields.size,
    };
    let text = written(200, |room| words::write_proposal(room, &fields));
    let input = || Input::new().bytes("library wrote", &text);
    let read = proposal::read(without_cr(&text), mode(proposal.form));
    same(PROPOSAL, read, Ok(TurnLine::Proposal(proposal)), input)?;
    library_reads(&proposal, run.random.number())
}

/// The second implementation writes; the library's numbers show the fields.
fn library_reads(p: &Proposal<'_>, mark: u64) -> Checked {
    let text = proposal::write(&TurnLine::Proposal(*p));
    let line = without_cr(&text);
    let framed = u8::from(mode(p.form) == Mode::Framed);
    let (number, marked) = library_answer(line, framed, mark);
    let out = &marked[1..12];
    let field = |place: usize| {
        let range = out[place] as usize..out[place + 1] as usize;
        line.get(range).unwrap_or_default()
    };
    let library = (number, out[0], out[1], [field(2), field(4), field(6), field(8)], out[10]);
    let (form, kind) = (p.form as u64, u64::from(p.kind.byte()));
    let second = (3, form, kind, [p.from, p.at, p.to, p.bid], p.size.into());
    same(PROPOSAL, library, second, || Input::new().bytes("second wrote", &text))
}

pub fn answers(run: &mut Run) -> Checked {
    run.tally.count(FS);
    let random = &mut run.random;
    let signs: Vec<u8> = (0..random.within(1, 5)).map(|_| random.pick(b"+-=")).collect();
    let input = || Input::new().bytes("signs", &signs);

    let text = written(20, |room| words::write_fs(room, &signs));
    let level = random.pick(&[0, 1, 9]);
    let read = fs::read(without_cr(&text), signs.len(), Level::numbered(level));
    let bytes = read.map(|signs| signs.iter().map(|sign| sign.byte()).collect());
    same(FS, bytes, Ok(signs.clone()), input)?;

    let text = fs::write_bytes(&signs);
    let mut out = [0xA5; 5];
    let number = words::read_fs(level, without_cr(&text), signs.len(), &mut out);
    same(FS, (number, &out[..signs.len()]), (0, &signs[..]), input)
}

/// Our SID, the prompt, FF, FQ and `F>` say to the second implementation what
/// they are called, and the library takes its own.
pub fn fixed(run: &mut Run) -> Checked {
    let texts: Vec<Vec<u8>> =
        (0..5).map(|which| written(20, |room| words::write_fixed(which, room))).collect();
    let lines: Vec<&[u8]> = texts.iter().map(|text| without_cr(text)).collect();
    let input = || Input::new().bytes("library wrote", &texts.concat());
    for _ in 0..5 {
        run.tally.count(FIXED);
    }
    same(FIXED, sid::judge(lines[0]), sid::judge(sid::OURS), input)?;
    same(FIXED, line::is_prompt(lines[1]), true, input)?;
    for (line, said) in
        [(lines[2], TurnLine::Nothing), (lines[3], TurnLine::Quit), (lines[4], TurnLine::BlockEnd)]
    {
        same(FIXED, proposal::read(line, Mode::Plain), Ok(said), input)?;
    }
    same(FIXED, words::read_sid(lines[0], &mut [0; 27]), 0, input)?;
    same(FIXED, words::is_prompt(lines[1]), 1, input)?;
    let numbers = [2, 3, 4].map(|which| library_answer(lines[which], 0, 0).0);
    same(FIXED, numbers, [0, 1, 2], input)
}

pub fn plain(run: &mut Run) -> Checked {
    transfer(run, PLAIN)
}

pub fn framed(run: &mut Run) -> Checked {
    transfer(run, FRAMED)
}

fn transfer(run: &mut Run, function: &'static str) -> Checked {
    run.tally.count(function);
    let random = &mut run.random;
    let plain = function == PLAIN;
    let (heading, mut body) = (inputs::heading(random), inputs::body(random, plain));
    body.truncate(BODY_MAX);
    // Room for the heads of blocks too.
    let size = body.len() + body.len() / 64 + 400;
    let text = written(size, |room| match plain {
        true => words::write_plain(room, &heading, &body),
        false => words::write_framed(room, &heading, &body),
    });
    let reading = match plain {
        true => read_plain(&text, body.len()),
        false => read_framed(&text, body.len()),
    };
    let input = || Input::new().bytes("library wrote", &text);
    let read = (reading.outcome, reading.consumed);
    same(function, read, (Outcome::Whole, text.len()), input)?;
    same_bytes(function, "heading", reading.heading, &heading, input)?;
    same_bytes(function, "body", &reading.body, &body, input)?;
    library_reads_transfer(random, function, &heading, &body)
}

/// The second implementation writes in rooms of one size; the library reads
/// each as it comes.
fn library_reads_transfer(
    random: &mut Random,
    function: &'static str,
    heading: &[u8],
    body: &[u8],
) -> Checked {
    let plain = function == PLAIN;
    let mode = if plain { Mode::Plain } else { Mode::Framed };
    let mut writer = Writer::new(mode, heading, body);
    let mut library = Transfer::start(u8::from(!plain));
    let (mut title, mut store) = ([0; 80], vec![0; body.len()]);
    let mut room = vec![0; random.within(1, 300)];
    let mut outcome = 0;
    loop {
        let count = writer.give(&mut room);
        if count == 0 {
            break;
        }
        outcome = library.feed(&room[..count], &mut title, &mut store);
    }
    let input = || Input::new().bytes("heading", heading).bytes("body", body);
    let lengths = (library.heading_length() as usize, library.body_length() as usize);
    same(function, (outcome, lengths), (1, (heading.len(), body.len())), input)?;
    same_bytes(function, "heading", &title[..heading.len()], heading, input)?;
    same_bytes(function, "body", &store, body, input)
}
