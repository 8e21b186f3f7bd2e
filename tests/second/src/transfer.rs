//! Transfers: a heading and a body on the link, plain or framed.
//!
//! - [`whole`] reads all bytes so far at once,
//! - [`reader`] reads them in any portions, as the link brings them,
//! - [`writer`] writes them, at once or in any portions.
//!
//! The two readers are written apart, so that each can be held to the other.

use crate::refusal::Refusal;

pub mod reader;
pub mod whole;
pub mod writer;

/// Framed: "01, L, heading, 00, offset digits, 00; blocks 02, n, data; 04,
/// checksum".
const HEADER: u8 = 0x01;
const BLOCK: u8 = 0x02;
const END: u8 = 0x04;

/// "n = 00 means 256"; "We write [...] blocks of 256 and a shorter last one".
const BLOCK_BYTES: usize = 256;

/// "Offset has 1 to 6 digits".
const OFFSET_DIGITS: usize = 6;

/// How far the bytes so far have brought a transfer.
#[derive(Clone, Copy, Debug, PartialEq, Eq)]
pub enum Outcome {
    /// It goes on.
    More,
    /// "A message is kept at its last byte."
    Whole,
    Refused(Refusal),
}

/// "The checksum makes the sum of all data bytes plus itself 0 modulo 256."
pub fn checksum(data: &[u8]) -> u8 {
    sum(data).wrapping_neg()
}

/// The sum of the bytes modulo 256.
fn sum(data: &[u8]) -> u8 {
    data.iter().fold(0, |sum, &byte| sum.wrapping_add(byte))
}

#[cfg(test)]
mod tests {
    use super::*;

    #[test]
    fn checksum_and_data_sum_to_0_modulo_256() {
        assert_eq!(checksum(b""), 0);
        assert_eq!(checksum(b"AB"), 0x7D);
        assert_eq!(checksum(&[0xFF; 256]), 0);
        assert_eq!(checksum(&[0xFF; 257]), 1);
        assert_eq!(checksum(&[0x80, 0x80]), 0);
    }
}
