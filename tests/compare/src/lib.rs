//! What the comparison and the benchmark share: the proved library behind a
//! safe wrapper, and random numbers that a seed repeats.

#![deny(unsafe_code)]

pub mod words;

pub use inputs::random;
