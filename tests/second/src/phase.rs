//! What the numbers of session memory stand for (docs/MEMORY.md), for tests that
//! read or write them there; the session here has types for it. By the proved
//! crates' names, which `tests/places/run` holds these numbers to.

/// "what is awaited: 0 SID (called), 1 SID (caller), 2 prompt, 3 turn, 4 FS line, 5 transfer,
/// 6 nothing, our FQ is said, 7 and more: over", at [`crate::places::PHASE`].
pub const CALLED_SID: u8 = 0;
pub const CALLER_SID: u8 = 1;
pub const PROMPT: u8 = 2;
pub const TURN: u8 = 3;
pub const FS: u8 = 4;
pub const TRANSFER: u8 = 5;
pub const LEAVING: u8 = 6;
pub const OVER: u8 = 7;

/// "what waits first: 0 nothing, 1 SID and prompt, 2 SID, 4 `*** Protocol error`, 5
/// `*** Checksum error`, 3 and every other number: FS line", at [`crate::places::FIRST`].
pub const PIECE_NONE: u8 = 0;
pub const PIECE_SID_AND_PROMPT: u8 = 1;
pub const PIECE_SID: u8 = 2;
pub const PIECE_PROTOCOL_ERROR: u8 = 4;
pub const PIECE_CHECKSUM_ERROR: u8 = 5;

/// "what waits then: 0 nothing, 1 FF, 2 FQ, 3 our block, 4 and more: transfers", at
/// [`crate::places::THEN`].
pub const PIECE_FF: u8 = 1;
pub const PIECE_FQ: u8 = 2;
pub const PIECE_BLOCK: u8 = 3;

/// What the next byte of a transfer is, at [`crate::places::PLACE`]: of a plain one the
/// title, the body or what follows its mark; of a framed one data, or something else.
pub mod reading {
    pub const TITLE: u8 = 0;
    pub const BODY: u8 = 1;
    pub const MARK: u8 = 2;
    pub const DATA: u8 = 7;
}
