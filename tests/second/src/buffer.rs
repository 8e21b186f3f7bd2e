//! The caller's buffer, and how a text goes into it piece by piece.

/// Writes the bytes of `text` from `skip` on that fit into `buffer` from
/// `place` to its end, and says how many.
///
/// "Give writes into the caller's buffer from a given place to its end at most,
/// and reports how many; a place beyond the end writes nothing and reports 0.
/// It writes as many waiting bytes as fit, and no other byte of the buffer
/// changes."
pub fn put(text: &[u8], skip: usize, buffer: &mut [u8], place: usize) -> usize {
    let waiting = text.get(skip..).unwrap_or_default();
    let room = buffer.get_mut(place..).unwrap_or_default();
    let count = waiting.len().min(room.len());
    room[..count].copy_from_slice(&waiting[..count]);
    count
}

#[cfg(test)]
mod tests {
    use super::put;

    /// What stands in a buffer of four dots, and the count.
    fn after(text: &[u8], skip: usize, place: usize) -> (usize, [u8; 4]) {
        let mut buffer = *b"....";
        let count = put(text, skip, &mut buffer, place);
        (count, buffer)
    }

    #[test]
    fn writes_what_fits_and_nothing_else() {
        assert_eq!(after(b"FF\r", 0, 0), (3, *b"FF\r."));
        assert_eq!(after(b"FF\r", 0, 1), (3, *b".FF\r"));
        assert_eq!(after(b"FF\r", 0, 2), (2, *b"..FF"));
        assert_eq!(after(b"FF\r", 2, 2), (1, *b"..\r."));
    }

    #[test]
    fn beyond_the_end_writes_nothing() {
        for (skip, place) in [(3, 0), (4, 0), (0, 4), (0, 5), (usize::MAX, 0), (0, usize::MAX)] {
            assert_eq!(after(b"FF\r", skip, place), (0, *b"...."));
        }
    }
}
