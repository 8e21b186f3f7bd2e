//! The proved library over its C interface, behind safe functions.
//!
//! The only `unsafe` of the tests. Each call lends what the interface asks for:
//! a slice as pointer and length, an array of fixed size as its pointer. The
//! library reads and writes nothing else and keeps no pointer.

#![allow(unsafe_code)]

mod c {
    extern "C" {
        pub fn words_byte_is(class: u8, byte: u8) -> u8;
        pub fn words_field_is(kind: u8, s: *const u8, n: usize) -> u8;
        pub fn words_same_bid(a: *const u8, na: usize, b: *const u8, nb: usize) -> u8;
        pub fn words_trimmed(line: *const u8, n: usize) -> usize;
        pub fn words_is_comment(line: *const u8, n: usize) -> u8;
        pub fn words_is_prompt(line: *const u8, n: usize) -> u8;
        pub fn words_line_byte(after_cr: u8, len: usize, byte: u8) -> u8;
        pub fn words_read_sid(line: *const u8, n: usize, levels: *mut u8) -> u8;
        pub fn words_read_turn_line(line: *const u8, n: usize, framed: u8, out: *mut u64) -> u8;
        pub fn words_read_fs(
            level: u8,
            line: *const u8,
            n: usize,
            proposals: usize,
            signs: *mut u8,
        ) -> u8;
        pub fn words_transfer_start(form: u8, state: *mut u64);
        pub fn words_transfer_feed(
            state: *mut u64,
            input: *const u8,
            n: usize,
            heading: *mut u8,
            store: *mut u8,
            store_len: usize,
        ) -> u8;
        pub fn words_write_fixed(
            which: u8,
            buf: *mut u8,
            n: usize,
            place: usize,
            skip: usize,
        ) -> usize;
        pub fn words_write_proposal(
            buf: *mut u8,
            n: usize,
            place: usize,
            skip: usize,
            form: u8,
            kind: u8,
            from: *const u8,
            from_len: usize,
            at: *const u8,
            at_len: usize,
            to: *const u8,
            to_len: usize,
            bid: *const u8,
            bid_len: usize,
            size: u32,
        ) -> usize;
        pub fn words_write_fs(
            buf: *mut u8,
            n: usize,
            place: usize,
            skip: usize,
            signs: *const u8,
            signs_len: usize,
        ) -> usize;
        pub fn words_write_plain(
            buf: *mut u8,
            n: usize,
            place: usize,
            skip: usize,
            title: *const u8,
            title_len: usize,
            body: *const u8,
            body_len: usize,
        ) -> usize;
        pub fn words_write_framed(
            buf: *mut u8,
            n: usize,
            place: usize,
            skip: usize,
            heading: *const u8,
            heading_len: usize,
            body: *const u8,
            body_len: usize,
        ) -> usize;
        pub fn words_checksum(data: *const u8, n: usize) -> u8;
        pub fn words_checksum_each(data: *const u8, n: usize) -> u8;
        pub fn words_heading(
            titles: *const u8,
            titles_len: usize,
            names: *const u8,
            names_len: usize,
            form: u8,
            start: usize,
            len: usize,
            buf: *mut u8,
            n: usize,
        ) -> usize;
    }
}

// SAFETY, for every call below: pointers and lengths come from one slice or
// array that lives through the call, and those the library writes through are
// lent by `&mut`, so nothing else sees them meanwhile.

pub fn byte_is(class: u8, byte: u8) -> u8 {
    unsafe { c::words_byte_is(class, byte) }
}

pub fn field_is(kind: u8, bytes: &[u8]) -> u8 {
    unsafe { c::words_field_is(kind, bytes.as_ptr(), bytes.len()) }
}

pub fn same_bid(a: &[u8], b: &[u8]) -> u8 {
    unsafe { c::words_same_bid(a.as_ptr(), a.len(), b.as_ptr(), b.len()) }
}

pub fn trimmed(line: &[u8]) -> usize {
    unsafe { c::words_trimmed(line.as_ptr(), line.len()) }
}

pub fn is_comment(line: &[u8]) -> u8 {
    unsafe { c::words_is_comment(line.as_ptr(), line.len()) }
}

pub fn is_prompt(line: &[u8]) -> u8 {
    unsafe { c::words_is_prompt(line.as_ptr(), line.len()) }
}

pub fn line_byte(after_cr: u8, length: usize, byte: u8) -> u8 {
    unsafe { c::words_line_byte(after_cr, length, byte) }
}

pub fn read_sid(line: &[u8], levels: &mut [u8; 27]) -> u8 {
    unsafe { c::words_read_sid(line.as_ptr(), line.len(), levels.as_mut_ptr()) }
}

pub fn read_turn_line(line: &[u8], framed: u8, out: &mut [u64; 11]) -> u8 {
    unsafe { c::words_read_turn_line(line.as_ptr(), line.len(), framed, out.as_mut_ptr()) }
}

pub fn read_fs(level: u8, line: &[u8], proposals: usize, signs: &mut [u8; 5]) -> u8 {
    unsafe { c::words_read_fs(level, line.as_ptr(), line.len(), proposals, signs.as_mut_ptr()) }
}

/// A transfer under way in the library: the eight numbers that it keeps,
/// between two marks that it must leave alone.
#[derive(Clone, Debug)]
#[repr(C)]
pub struct Transfer {
    before: u64,
    state: [u64; 8],
    after: u64,
}

const MARK: u64 = 0xA5A5_A5A5_A5A5_A5A5;

impl Transfer {
    pub fn start(form: u8) -> Transfer {
        // Not zeros: what the library relies on it must set itself.
        let mut transfer = Transfer { before: MARK, state: [MARK; 8], after: MARK };
        unsafe { c::words_transfer_start(form, transfer.state.as_mut_ptr()) };
        transfer
    }

    /// Feeds a portion. The library takes heading and store as the calls before
    /// left them, so both are lent anew each time.
    pub fn feed(&mut self, portion: &[u8], heading: &mut [u8; 80], store: &mut [u8]) -> u8 {
        unsafe {
            c::words_transfer_feed(
                self.state.as_mut_ptr(),
                portion.as_ptr(),
                portion.len(),
                heading.as_mut_ptr(),
                store.as_mut_ptr(),
                store.len(),
            )
        }
    }

    pub fn heading_length(&self) -> u64 {
        self.state[2]
    }

    pub fn body_length(&self) -> u64 {
        self.state[4]
    }

    pub fn marks_stand(&self) -> bool {
        (self.before, self.after) == (MARK, MARK)
    }

    /// Bytes consumed by the last portion.
    pub fn consumed(&self) -> u64 {
        self.state[7]
    }
}

/// Where a writer writes: from `place` of the buffer, the text from `skip`.
#[derive(Debug)]
pub struct Room<'a> {
    pub buffer: &'a mut [u8],
    pub place: usize,
    pub skip: usize,
}

/// The fields of a proposal as the library writes them, judged by nobody.
#[derive(Clone, Copy, Debug)]
pub struct Fields<'a> {
    pub form: u8,
    pub kind: u8,
    pub from: &'a [u8],
    pub at: &'a [u8],
    pub to: &'a [u8],
    pub bid: &'a [u8],
    pub size: u32,
}

pub fn write_fixed(which: u8, room: Room<'_>) -> usize {
    let Room { buffer, place, skip } = room;
    unsafe { c::words_write_fixed(which, buffer.as_mut_ptr(), buffer.len(), place, skip) }
}

pub fn write_proposal(room: Room<'_>, fields: &Fields<'_>) -> usize {
    unsafe {
        c::words_write_proposal(
            room.buffer.as_mut_ptr(),
            room.buffer.len(),
            room.place,
            room.skip,
            fields.form,
            fields.kind,
            fields.from.as_ptr(),
            fields.from.len(),
            fields.at.as_ptr(),
            fields.at.len(),
            fields.to.as_ptr(),
            fields.to.len(),
            fields.bid.as_ptr(),
            fields.bid.len(),
            fields.size,
        )
    }
}

pub fn write_fs(room: Room<'_>, signs: &[u8]) -> usize {
    unsafe {
        c::words_write_fs(
            room.buffer.as_mut_ptr(),
            room.buffer.len(),
            room.place,
            room.skip,
            signs.as_ptr(),
            signs.len(),
        )
    }
}

pub fn write_plain(room: Room<'_>, title: &[u8], body: &[u8]) -> usize {
    unsafe {
        c::words_write_plain(
            room.buffer.as_mut_ptr(),
            room.buffer.len(),
            room.place,
            room.skip,
            title.as_ptr(),
            title.len(),
            body.as_ptr(),
            body.len(),
        )
    }
}

pub fn write_framed(room: Room<'_>, heading: &[u8], body: &[u8]) -> usize {
    unsafe {
        c::words_write_framed(
            room.buffer.as_mut_ptr(),
            room.buffer.len(),
            room.place,
            room.skip,
            heading.as_ptr(),
            heading.len(),
            body.as_ptr(),
            body.len(),
        )
    }
}

pub fn checksum(data: &[u8]) -> u8 {
    unsafe { c::words_checksum(data.as_ptr(), data.len()) }
}

/// The same, summed one byte at a time.
pub fn checksum_each(data: &[u8]) -> u8 {
    unsafe { c::words_checksum_each(data.as_ptr(), data.len()) }
}

/// The stores of titles and names, and a place in one of them.
#[derive(Clone, Copy, Debug)]
pub struct HeadingAt<'a> {
    pub titles: &'a [u8],
    pub names: &'a [u8],
    pub form: u8,
    pub start: usize,
    pub length: usize,
}

pub fn heading(at: &HeadingAt<'_>, buffer: &mut [u8]) -> usize {
    unsafe {
        c::words_heading(
            at.titles.as_ptr(),
            at.titles.len(),
            at.names.as_ptr(),
            at.names.len(),
            at.form,
            at.start,
            at.length,
            buffer.as_mut_ptr(),
            buffer.len(),
        )
    }
}
