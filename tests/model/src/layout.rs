//! Sizes and places in the lent memory, as docs/MEMORY.md has them.

use crate::frame::{MAX_BODY, MAX_LENGTH_BYTES};
use crate::sid::MAX_SID_BYTES;
use crate::sid_table::SIDS;
use crate::state::{HANDLES, PAIRS, STATIONS, TOKENS};
use crate::token::{MAX_DACL, MAX_GROUPS, MAX_RESTRICTING};

/// Where a token's fields stand in its row.
#[allow(missing_docs)] // named as the fields
pub mod token_word {
    pub const NUMBER: usize = 0;
    pub const MODIFIED: usize = 1;
    pub const SESSION: usize = 2;
    pub const USER: usize = 3;
    pub const TYPE: usize = 4;
    pub const LEVEL: usize = 5;
    pub const ELEVATION: usize = 6;
    pub const WRITE_RESTRICTED: usize = 7;
    pub const USER_DENY_ONLY: usize = 8;
    pub const OWNER: usize = 9;
    pub const PRIMARY_GROUP: usize = 10;
    pub const SCOPE: usize = 11;
    pub const INTEGRITY: usize = 12;
    pub const PRESENT: usize = 13;
    pub const ENABLED: usize = 14;
    pub const DEFAULT: usize = 15;
    pub const USED: usize = 16;
    pub const GROUP_COUNT: usize = 17;
    pub const RESTRICTING_COUNT: usize = 18;
    pub const DACL_LENGTH: usize = 19;
    pub const ROOT: usize = 20;
    /// The first group; before it stand the fields that every token has one of.
    pub const GROUPS: usize = ROOT + 1;
    /// The first restricting SID.
    pub const RESTRICTING: usize = GROUPS + super::MAX_GROUPS;
}

/// Where a group's attributes begin in its word: the bit; the SID stands below.
pub const ATTRIBUTES_BIT: u32 = u32::BITS;

/// Where a station's fields stand in its row.
#[allow(missing_docs)] // named as the fields
pub mod station_word {
    pub const TOKEN: usize = 0;
    pub const PENDING_COUNT: usize = 1;
    pub const BROKEN: usize = 2;
    pub const CLIENT: usize = 3;
    pub const CLIENT_LEVEL: usize = 4;
}

/// Where a pair's fields stand in its row; a free place is told by the elevated one.
#[allow(missing_docs)] // named as the fields
pub mod pair_word {
    pub const SESSION: usize = 0;
    pub const ELEVATED: usize = 1;
    pub const FILTERED: usize = 2;
}

/// Where a handle's fields stand in its record: bytes.
#[allow(missing_docs)] // named as the fields
pub mod handle_byte {
    use std::ops::Range;
    pub const STATION: Range<usize> = 0..2;
    pub const MASK: Range<usize> = 2..4;
    pub const NUMBER: Range<usize> = 4..8;
    pub const TOKEN: Range<usize> = 8..16;
}

/// Where things stand among the control words.
#[allow(missing_docs)] // named as the next numbers
pub mod control_word {
    pub const NEXT_TOKEN: usize = 0;
    pub const NEXT_HANDLE: usize = 1;
    /// The first station's row; the others follow.
    pub const STATIONS: usize = NEXT_HANDLE + 1;
    /// The first pair's row; the others follow.
    pub const PAIRS: usize = STATIONS + super::STATIONS * super::STATION_ROW;
    /// How many SIDs the table has.
    pub const SID_COUNT: usize = PAIRS + super::PAIRS * super::PAIR_ROW;
    /// The place of the lowest row; those of higher rows follow.
    pub const SID_PLACES: usize = SID_COUNT + 1;
    /// The row of the first SID; the others follow by number.
    pub const SID_ROWS: usize = SID_PLACES + super::SIDS;
}

/// Words of a token's row.
pub const TOKEN_ROW: usize = token_word::RESTRICTING + MAX_RESTRICTING;
/// Bytes of a DACL's row.
pub const DACL_ROW: usize = MAX_DACL;
/// Bytes of a handle's record.
pub const HANDLE_BYTES: usize = handle_byte::TOKEN.end;
/// Words of a station's row.
pub const STATION_ROW: usize = station_word::CLIENT_LEVEL + 1;
/// Words of a pair's row.
pub const PAIR_ROW: usize = pair_word::FILTERED + 1;
/// Words of a SID's row: the longest packed SID, and zeros to the word's end.
pub const SID_ROW: usize = MAX_SID_BYTES.div_ceil(size_of::<u64>());
/// Bytes of a station's row of pending bytes.
pub const PENDING_ROW: usize = MAX_LENGTH_BYTES + MAX_BODY;

/// Size of the tokens part.
pub const TOKEN_WORDS: usize = TOKENS * TOKEN_ROW;
/// Size of the DACLs part.
pub const DACL_BYTES: usize = TOKENS * DACL_ROW;
/// Size of the handles part.
pub const HANDLE_ROWS: usize = HANDLES;
/// Size of the control part.
pub const CONTROL_WORDS: usize = control_word::SID_ROWS + SIDS * SID_ROW;
/// Size of the pending part.
pub const PENDING_BYTES: usize = STATIONS * PENDING_ROW;
