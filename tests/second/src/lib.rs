//! The FBB forwarding protocol as condensed in document 01, a second time.
//!
//! Written from document 01 (`01-scope.md`), from our readings of it
//! (docs/DECISIONS.md) and from the layouts of docs/MEMORY.md, never from the
//! proved library, so that the two can be compared: they share no line and no
//! plan.
//!
//! - Words: readers and writers only. They know no session, touch no link and
//!   keep nothing between calls, but for the two that go in portions.
//! - [`session`]: open, receive and give over the lent memory ([`memory`], and
//!   [`layout`] for its bytes, [`places`] and [`phase`] for their places and numbers).
//! - [`log`]: what a session's bytes mean, read from the whole of them.
//! - [`tally`]: what the front panel shows (request Q-3), by the log and the table.
//! - [`examples`]: the papers' own sessions.
//!
//! A sentence of 01 stands in quotes above the item that renders it;
//! "DECISIONS N" is an entry of docs/DECISIONS.md.

#![forbid(unsafe_code)]

pub mod buffer;
pub mod examples;
pub mod field;
pub mod fs;
pub mod host;
pub mod layout;
pub mod line;
pub mod log;
pub mod memory;
pub mod pages;
pub mod phase;
pub mod places;
pub mod proposal;
pub mod record;
pub mod refusal;
pub mod route;
pub mod session;
pub mod sid;
pub mod tally;
pub mod transfer;
