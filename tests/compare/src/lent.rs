//! Buffers lent to the library, filled with a pattern and with margins around
//! them, so that any byte written where it should not be is seen.

use compare::random::Random;

const MARGIN: usize = 16;

/// A buffer and its margins. Two are equal if every byte of both is.
#[derive(Clone, Debug, PartialEq, Eq)]
pub struct Lent {
    bytes: Vec<u8>,
}

impl Lent {
    /// A buffer of random bytes: a written byte shows, whatever its value, in
    /// all runs but one in 256, and there are many.
    pub fn new(random: &mut Random, length: usize) -> Lent {
        let mut bytes = vec![0; length + 2 * MARGIN];
        random.fill(&mut bytes);
        Lent { bytes }
    }

    /// The buffer without its margins.
    pub fn part(&mut self) -> &mut [u8] {
        let end = self.bytes.len() - MARGIN;
        &mut self.bytes[MARGIN..end]
    }

    /// The buffer as an array; its length must be `N`.
    pub fn array<const N: usize>(&mut self) -> &mut [u8; N] {
        self.part().try_into().expect("a buffer of N bytes")
    }

    /// The buffer with its margins.
    pub fn all(&self) -> &[u8] {
        &self.bytes
    }
}
