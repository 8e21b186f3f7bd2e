//! The proved library over its C interface (include/fringemole_route.h), behind
//! safe functions.

#![allow(unsafe_code)]

use second::route::{Header, Ours};
use std::ops::Range;

#[repr(C)]
struct Hop {
    next: usize,
    start: usize,
    end: usize,
    number: u32,
    year: u16,
    month: u8,
    day: u8,
    hour: u8,
    minute: u8,
    gmt: u8,
    found: u8,
}

#[repr(C)]
struct Origin {
    start: usize,
    end: usize,
    found: u8,
}

#[repr(C)]
struct Added {
    count: usize,
    answer: u8,
}

extern "C" {
    fn fringemole_route_next(body: *const u8, n: usize, at: usize) -> Hop;
    fn fringemole_route_origin(body: *const u8, n: usize) -> Origin;
    fn fringemole_route_add(
        out: *mut u8,
        room: usize,
        year: u16,
        month: u8,
        day: u8,
        hour: u8,
        minute: u8,
        number: u32,
        mailbox: *const u8,
        mailbox_n: usize,
        body: *const u8,
        n: usize,
    ) -> Added;
}

/// The header at a place, and the place of the next. Where there is none every
/// number must be 0.
pub fn next(body: &[u8], at: usize) -> Option<(Header, usize)> {
    let hop = unsafe { fringemole_route_next(body.as_ptr(), body.len(), at) };
    if hop.found == 0 {
        let numbers = [hop.next, hop.start, hop.end, hop.number as usize, usize::from(hop.year)];
        let small = [hop.month, hop.day, hop.hour, hop.minute, hop.gmt];
        assert!(numbers.iter().all(|&n| n == 0) && small.iter().all(|&n| n == 0));
        return None;
    }
    assert!(hop.found == 1 && hop.gmt < 2);
    let header = Header {
        year: hop.year,
        month: hop.month,
        day: hop.day,
        hour: hop.hour,
        minute: hop.minute,
        gmt: hop.gmt == 1,
        number: hop.number,
        mailbox: hop.start..hop.end,
    };
    Some((header, hop.next))
}

pub fn origin(body: &[u8]) -> Option<Range<usize>> {
    let origin = unsafe { fringemole_route_origin(body.as_ptr(), body.len()) };
    match origin.found {
        0 => {
            assert!(origin.start == 0 && origin.end == 0);
            None
        }
        _ => Some(origin.start..origin.end),
    }
}

/// The answer and the count; the buffer as the call left it.
pub fn add(out: &mut [u8], ours: &Ours, body: &[u8]) -> (u8, usize) {
    let added = unsafe {
        fringemole_route_add(
            out.as_mut_ptr(),
            out.len(),
            ours.year,
            ours.month,
            ours.day,
            ours.hour,
            ours.minute,
            ours.number,
            ours.mailbox.as_ptr(),
            ours.mailbox.len(),
            body.as_ptr(),
            body.len(),
        )
    };
    (added.answer, added.count)
}
