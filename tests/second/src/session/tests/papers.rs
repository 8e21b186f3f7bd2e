//! "A program runs the others, and the documents' sessions".

use super::end::End;
use crate::examples::{self, Example, Said, Taken};
use crate::log::Kept;
use crate::refusal::SESSION_ENDED;
use crate::session::Reply;

/// Plays a session in portions and rooms of so many bytes.
fn play(example: &Example, portion: usize) {
    let mut end = End::open(example.role(), &example.buffers());
    let mut last = 0;
    for said in &example.script {
        match said {
            Said::Us(bytes) => {
                for part in bytes.chunks(portion) {
                    assert_eq!(end.say_up_to(part.len()), part, "{}", example.name);
                }
                assert_eq!(end.say_up_to(portion), b"", "{}", example.name);
            }
            Said::Partner(bytes) => {
                for part in bytes.chunks(portion) {
                    let reply = end.hear(part);
                    assert_eq!(reply, Reply { count: part.len(), ..reply }, "{}", example.name);
                    assert_eq!(last, 0, "{}", example.name);
                    last = reply.answer;
                }
            }
        }
    }
    assert_eq!(last, example.answer, "{}", example.name);
    check_end(example, &mut end);
}

fn check_end(example: &Example, end: &mut End) {
    assert!(end.session.is_over(), "{}", example.name);
    assert_eq!(end.say(), b"");
    assert_eq!(end.hear(b""), Reply { answer: SESSION_ENDED, place: 0, count: 0 });
    assert_eq!(end.states(), example.states, "{}", example.name);
    let kept = end.kept();
    let parts = |k: &Kept| (k.envelope.bid.clone(), k.heading.clone(), k.body.clone());
    let owned = |&(bid, heading, body): &Taken| (bid.to_vec(), heading.to_vec(), body.to_vec());
    let expected: Vec<_> = example.inbox.iter().map(owned).collect();
    assert_eq!(kept.iter().map(parts).collect::<Vec<_>>(), expected, "{}", example.name);
}

#[test]
fn sessions_of_the_papers_in_any_portions() {
    for example in examples::all() {
        for portion in [1, 2, 3, 7, 64, 100_000] {
            play(&example, portion);
        }
    }
}

/// The link drops after any byte: what stands then is the log's (the end under
/// test checks it), and nothing is marked before its time.
#[test]
fn any_cut_of_the_long_session() {
    let examples = examples::all();
    let long = examples.iter().find(|example| example.name.contains("long session, calling"));
    let example = long.expect("the long session");
    let length = |said: &Said| match said {
        Said::Us(bytes) | Said::Partner(bytes) => bytes.len(),
    };
    let total: usize = example.script.iter().map(length).sum();
    for cut in 0..total {
        let mut end = End::open(example.role(), &example.buffers());
        let mut left = cut;
        for said in &example.script {
            let part = left.min(length(said));
            match said {
                Said::Us(_) => drop(end.say_up_to(part)),
                Said::Partner(bytes) => drop(end.hear(&bytes[..part])),
            }
            left -= part;
        }
        assert_eq!(left, 0);
    }
}
