//! Limits, by the names that include/obriska.h has them under.

/// How many stations there are: 0 to 7.
pub const STATIONS: usize = 8;
/// How many tokens live at most.
pub const TOKENS: usize = 16;
/// How many handles live at most, of all stations together.
pub const HANDLES: usize = 32;
/// How many linked pairs there are at most, each of another session.
pub const PAIRS: usize = 4;
/// How many SIDs the table has at most, SYSTEM and Anonymous among them.
pub const SIDS: usize = 256;

/// How many groups a token has at most.
pub const MAX_GROUPS: usize = 64;
/// How many restricting SIDs a token has at most.
pub const MAX_RESTRICTING: usize = 16;
/// The longest default DACL in bytes.
pub const MAX_DACL: usize = 256;
/// How deep a condition is at most.
pub const MAX_DEPTH: usize = 8;
/// How many sub-authorities a SID has at most.
pub const MAX_SUB_AUTHORITIES: usize = 15;
/// The longest packed SID in bytes: 8, and 4 for each sub-authority.
pub const MAX_SID: usize = 68;

/// The longest answer in bytes.
pub const MAX_ANSWER: usize = 1024;
/// The longest body of a request in bytes.
pub const MAX_BODY: usize = 2048;
/// The most bytes that say a body's length.
pub const LENGTH_BYTES: usize = 2;
/// The most bytes of a request's frame: enough for any.
pub const MAX_FRAME: usize = LENGTH_BYTES + MAX_BODY;
/// How many words request 6 answers.
pub const GROUP_WORDS: usize = 16;
