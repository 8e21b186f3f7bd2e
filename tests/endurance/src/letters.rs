//! Letters for a node's table.

use inputs::random::Random;
use inputs::{at, bid, body_of, call, heading};
use second::field::BID_MAX;
use second::host::Letter;
use second::memory::Envelope;
use second::record::{Form, Kind};

/// A letter of one of these forms with a body of this length, and a BID that ends
/// with this number: no other has it.
pub fn letter(random: &mut Random, forms: &[Form], length: usize, number: u32) -> Letter {
    let form = random.pick(forms);
    let digits = number.to_string().into_bytes();
    let mut name = bid(random);
    name.truncate(BID_MAX - 1 - digits.len());
    let bid = [name, b"_".to_vec(), digits].concat();
    Letter {
        envelope: Envelope {
            form,
            kind: random.pick(&[Kind::Private, Kind::Bulletin]),
            from: call(random),
            at: at(random),
            to: call(random),
            bid,
        },
        size: length as u32,
        heading: heading(random),
        body: body_of(random, length, form == Form::Plain),
    }
}
