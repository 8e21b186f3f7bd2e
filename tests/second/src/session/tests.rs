//! Whole sessions. Each one is held to the log after every call.

mod answers;
mod end;
mod opening;
mod papers;
mod partners;
mod reasons;
mod received;
mod refusals;
mod slips;
mod sums;
mod tallies;
mod turns;
