//! A lent buffer with margins around it, so that any byte written where it
//! should not be is seen.

use inputs::random::Random;

const MARGIN: usize = 16;

/// A buffer and its margins. Two are equal if every byte of both is.
#[derive(Clone, Debug, PartialEq, Eq)]
pub struct Guarded {
    bytes: Vec<u8>,
    start: usize,
    length: usize,
}

impl Guarded {
    /// A buffer with these bytes, at any alignment.
    pub fn new(random: &mut Random, content: &[u8]) -> Guarded {
        let (start, length) = (MARGIN + random.below(8), content.len());
        let mut bytes = vec![0; start + length + MARGIN];
        random.fill(&mut bytes[..start]);
        random.fill(&mut bytes[start + length..]);
        bytes[start..start + length].copy_from_slice(content);
        Guarded { bytes, start, length }
    }

    pub fn part(&self) -> &[u8] {
        &self.bytes[self.start..self.start + self.length]
    }

    pub fn part_mut(&mut self) -> &mut [u8] {
        &mut self.bytes[self.start..self.start + self.length]
    }

    /// The buffer a few bytes longer or shorter than it is, for calls that lend
    /// another size than open was lent.
    pub fn resized(&mut self, by: isize) -> &mut [u8] {
        let length = moved(self.length, by).min(self.length + MARGIN);
        &mut self.bytes[self.start..self.start + length]
    }

    /// The bytes before the buffer and those after it.
    pub fn margins(&self) -> (&[u8], &[u8]) {
        (&self.bytes[..self.start], &self.bytes[self.start + self.length..])
    }

    /// The first place at which two buffers differ, from the buffer's start on
    /// (below 0: in the margin before it).
    pub fn first_difference(&self, other: &Guarded) -> Option<isize> {
        if self.bytes == other.bytes {
            return None;
        }
        let mut pairs = self.bytes.iter().zip(&other.bytes);
        let place = pairs.position(|(a, b)| a != b)?;
        Some(place as isize - self.start as isize)
    }
}

/// A size moved up or down, not below 0.
pub fn moved(size: usize, by: isize) -> usize {
    if by < 0 {
        size.saturating_sub(by.unsigned_abs())
    } else {
        size + by.unsigned_abs()
    }
}
