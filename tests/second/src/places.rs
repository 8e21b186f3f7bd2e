//! Where each thing lies in lent memory, and how long it is: the tables of
//! docs/MEMORY.md, by their names. The other tests in Rust take them from here.
//! Written from that page alone; `tests/places/run` holds the numbers to the
//! proved crates.

/// "The fields of a message (68 bytes)", from where they begin.
pub const FORM: usize = 0;
pub const TYPE: usize = 1;
pub const FROM: usize = 2;
pub const AT: usize = 9;
pub const TO: usize = 48;
pub const BID: usize = 55;
pub const FIELDS: usize = 68;

/// "the partner's proposals: the fields (68 bytes), announced size (4)"
pub const PROPOSAL_SIZE: usize = 68;
pub const PROPOSAL: usize = 72;

/// "A record of the table (96 bytes, `RECORD`)": "a state a partner", so many bytes, then ..
pub const STATES: usize = 8;
pub const RECORD_FORM: usize = 8;
pub const RECORD_TYPE: usize = 9;
pub const RECORD_FROM: usize = 10;
pub const RECORD_AT: usize = 17;
pub const RECORD_TO: usize = 56;
pub const RECORD_BID: usize = 63;
pub const RECORD_SIZE_FIELD: usize = 76;
pub const RECORD_TITLE: usize = 80;
pub const RECORD_TITLE_LEN: usize = 84;
pub const RECORD_NAME: usize = 85;
pub const RECORD_NAME_LEN: usize = 89;
pub const RECORD_BODY: usize = 90;
pub const RECORD_BODY_LEN: usize = 94;
pub const RECORD: usize = 96;

/// "A known BID (13 bytes, `KNOWN`)"
pub const KNOWN: usize = 13;

/// "A message of the inbox (155 bytes, `ENTRY`)"
pub const ENTRY_HEADING: usize = 68;
pub const ENTRY_BODY: usize = 149;
pub const ENTRY_BODY_LEN: usize = 153;
pub const ENTRY: usize = 155;

/// "Session memory (1,024 bytes, `SESSION`)": the mark, the sizes that open kept, 8 bytes
/// each.
pub const MARK: usize = 0;
pub const SIZE_TABLE: usize = 4;
pub const SIZE_TITLES: usize = 12;
pub const SIZE_NAMES: usize = 20;
pub const SIZE_BODIES: usize = 28;
pub const SIZE_KNOWN: usize = 36;
pub const SIZE_INBOX: usize = 44;
pub const SIZE_STORE: usize = 52;

/// The numbers of the state; what [`PHASE`], [`FIRST`], [`THEN`] and [`PLACE`] hold is in
/// [`crate::phase`].
pub const PHASE: usize = 60;
pub const FF: usize = 61;
pub const FRAMED: usize = 62;
pub const AFTER_CR: usize = 63;
pub const FIRST: usize = 64;
pub const THEN: usize = 65;
pub const KEPT: usize = 66;
pub const CURRENT: usize = 67;
pub const PROPOSALS: usize = 68;
pub const OURS: usize = 69;
pub const SENDING: usize = 75;
pub const SIGNS: usize = 81;
pub const PLACE: usize = 87;
pub const LENGTH: usize = 88;
pub const HEAD: usize = 89;
pub const OFFSET: usize = 90;
pub const SUM: usize = 91;
pub const LINE_LENGTH: usize = 92;
pub const LEFT: usize = 94;
pub const BODY: usize = 96;
pub const POS: usize = 100;
pub const USED: usize = 108;
pub const BLOCK_SUM: usize = 116;
pub const LEVEL: usize = 117;
pub const PARTNER: usize = 118;
pub const TALLY_WAITING: usize = 119;
pub const TALLY_SIZES: usize = 120;
pub const TALLY_PROPOSED: usize = 124;
pub const TALLY_FORWARDED: usize = 125;
pub const TALLY_DECLINED: usize = 126;
pub const TALLY_DEFERRED: usize = 127;
pub const TALLY_UNSETTLED: usize = 128;
pub const NUMBERS_END: usize = 129;

/// The arrays of the state: where they begin, and where each does from there.
pub const ARRAYS: usize = 160;
pub const DEFERRED: usize = 0;
pub const HEADING: usize = 64;
pub const LINE: usize = 144;
pub const BLOCK: usize = 400;
pub const ARRAYS_END: usize = 920;
pub const SESSION: usize = 1_024;
