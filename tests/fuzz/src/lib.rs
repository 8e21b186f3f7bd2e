//! Both implementations side by side ([`pair`]) and the runs of the fuzzer over
//! them. The replay of captures and the endurance runs use them too.

#![deny(unsafe_code)]

pub mod changed;
pub mod cuts;
pub mod describe;
pub mod form;
pub mod guarded;
pub mod lent;
pub mod library;
pub mod pair;
pub mod partner;
pub mod report;
pub mod sessions;
pub mod tables;
pub mod tally;
pub mod watch;
pub mod wrong;
