//! The proved library over its C interface (`fringemole.h`), behind safe
//! functions. The only `unsafe` of the fuzzer.

#![allow(unsafe_code)]

use crate::watch;
use second::session::Reply;

mod c {
    #[repr(C)]
    pub struct Reply {
        pub answer: u8,
        pub place: u8,
        pub count: usize,
    }

    extern "C" {
        pub fn fringemole_open(
            role: u8,
            partner: u8,
            session: *mut u8,
            session_len: usize,
            table: *const u8,
            table_len: usize,
            titles: *const u8,
            titles_len: usize,
            names: *const u8,
            names_len: usize,
            bodies: *const u8,
            bodies_len: usize,
            known: *const u8,
            known_len: usize,
            inbox: *const u8,
            inbox_len: usize,
            store: *const u8,
            store_len: usize,
        ) -> Reply;

        pub fn fringemole_receive(
            session: *mut u8,
            session_len: usize,
            table: *mut u8,
            table_len: usize,
            titles: *const u8,
            titles_len: usize,
            names: *const u8,
            names_len: usize,
            bodies: *const u8,
            bodies_len: usize,
            known: *const u8,
            known_len: usize,
            inbox: *mut u8,
            inbox_len: usize,
            store: *mut u8,
            store_len: usize,
            bytes: *const u8,
            bytes_len: usize,
        ) -> Reply;

        pub fn fringemole_give(
            session: *mut u8,
            session_len: usize,
            table: *const u8,
            table_len: usize,
            titles: *const u8,
            titles_len: usize,
            names: *const u8,
            names_len: usize,
            bodies: *const u8,
            bodies_len: usize,
            known: *const u8,
            known_len: usize,
            inbox: *const u8,
            inbox_len: usize,
            store: *const u8,
            store_len: usize,
            buf: *mut u8,
            buf_len: usize,
            place: usize,
        ) -> Reply;
    }
}

impl From<c::Reply> for Reply {
    fn from(reply: c::Reply) -> Reply {
        Reply { answer: reply.answer, place: reply.place, count: reply.count }
    }
}

/// The eight buffers. All are lent by `&mut`, so that a library that writes one
/// that it may only read is caught by the comparison and not by the compiler's
/// assumptions.
#[derive(Debug)]
pub struct Lent<'a> {
    pub session: &'a mut [u8],
    pub table: &'a mut [u8],
    pub titles: &'a mut [u8],
    pub names: &'a mut [u8],
    pub bodies: &'a mut [u8],
    pub known: &'a mut [u8],
    pub inbox: &'a mut [u8],
    pub store: &'a mut [u8],
}

/// Calls a function of the library on the eight buffers and what follows them.
///
/// SAFETY: pointers and lengths come from one slice each, which lives through
/// the call and, being lent by `&mut`, is seen by nothing else meanwhile.
macro_rules! call {
    ($function:ident, ($($first:expr),*), $lent:expr $(, $more:expr)*) => {
        unsafe {
            c::$function(
                $($first,)*
                $lent.session.as_mut_ptr(),
                $lent.session.len(),
                $lent.table.as_mut_ptr(),
                $lent.table.len(),
                $lent.titles.as_mut_ptr(),
                $lent.titles.len(),
                $lent.names.as_mut_ptr(),
                $lent.names.len(),
                $lent.bodies.as_mut_ptr(),
                $lent.bodies.len(),
                $lent.known.as_mut_ptr(),
                $lent.known.len(),
                $lent.inbox.as_mut_ptr(),
                $lent.inbox.len(),
                $lent.store.as_mut_ptr(),
                $lent.store.len(),
                $($more,)*
            )
        }
    };
}

pub fn open(role: u8, partner: u8, lent: Lent<'_>) -> Reply {
    watch::call();
    call!(fringemole_open, (role, partner), lent).into()
}

pub fn receive(lent: Lent<'_>, bytes: &[u8]) -> Reply {
    watch::call();
    call!(fringemole_receive, (), lent, bytes.as_ptr(), bytes.len()).into()
}

pub fn give(lent: Lent<'_>, buffer: &mut [u8], place: usize) -> Reply {
    watch::call();
    call!(fringemole_give, (), lent, buffer.as_mut_ptr(), buffer.len(), place).into()
}
