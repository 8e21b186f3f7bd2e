//! Lent memory in words, and its sizes by buffer.

use crate::lent::{Memory, SESSION, STORE, TABLE};
use second::layout::read_record;
use second::memory::Sizes;
use second::places;
use std::fmt::Write;

/// The size of the buffer with this number.
pub fn size_mut(sizes: &mut Sizes, buffer: usize) -> &mut usize {
    match buffer {
        SESSION => &mut sizes.session,
        TABLE => &mut sizes.table,
        2 => &mut sizes.titles,
        3 => &mut sizes.names,
        4 => &mut sizes.bodies,
        5 => &mut sizes.known,
        6 => &mut sizes.inbox,
        STORE => &mut sizes.store,
        _ => unreachable!("eight buffers"),
    }
}

/// Sizes and records, for a report.
pub fn memory(memory: &Memory) -> String {
    let mut text = format!("{:?}", memory.second().sizes());
    for (place, entry) in memory.part(TABLE).chunks(places::RECORD).enumerate() {
        let _ = match read_record(entry) {
            None => write!(text, "\n  record {place}: {}", entry.escape_ascii()),
            Some(record) => {
                let envelope = &record.envelope;
                let fields = [&envelope.from, &envelope.at, &envelope.to, &envelope.bid];
                let fields = fields.map(|field| field.escape_ascii().to_string()).join(" ");
                let (form, size) = (envelope.form, record.size);
                let states = record.states.map(|state| state as u8);
                let spans = [record.title, record.name, record.body];
                let spans = spans.map(|span| format!("{}+{}", span.start, span.length));
                write!(text, "\n  record {place}: {states:?} {form:?} {fields} {size} {spans:?}")
            }
        };
    }
    text
}
