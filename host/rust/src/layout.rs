//! Places and sizes, by the names that include/obriska.h has them under.

use crate::limits::{
    HANDLES, MAX_DACL, MAX_FRAME, MAX_GROUPS, MAX_RESTRICTING, PAIRS, SIDS, STATIONS, TOKENS,
};

/// Words of a token slot.
pub(crate) mod token_word {
    pub const NUMBER: usize = 0;
    pub const MODIFIED: usize = 1;
    pub const SESSION: usize = 2;
    pub const USER: usize = 3;
    pub const TYPE: usize = 4;
    pub const LEVEL: usize = 5;
    pub const ELEVATION: usize = 6;
    pub const WRITE_RESTRICTED: usize = 7;
    pub const USER_DENY_ONLY: usize = 8;
    pub const OWNER: usize = 9;
    pub const PRIMARY_GROUP: usize = 10;
    pub const SCOPE: usize = 11;
    pub const INTEGRITY: usize = 12;
    pub const PRESENT: usize = 13;
    pub const ENABLED: usize = 14;
    pub const DEFAULT: usize = 15;
    pub const USED: usize = 16;
    pub const GROUP_COUNT: usize = 17;
    pub const RESTRICTING_COUNT: usize = 18;
    pub const DACL_LENGTH: usize = 19;
    pub const ROOT: usize = 20;
    /// The first group.
    pub const GROUPS: usize = ROOT + 1;
    /// The first restricting SID.
    pub const RESTRICTING: usize = GROUPS + super::MAX_GROUPS;
}

/// The bit at which a group's attributes begin in its word; the SID stands below.
pub(crate) const ATTRIBUTES_BIT: u32 = u32::BITS;

/// The control words.
pub(crate) mod control_word {
    pub const NEXT_TOKEN: usize = 0;
    pub const NEXT_HANDLE: usize = 1;
    /// The row of station 0; the others follow.
    pub const FIRST_STATION: usize = NEXT_HANDLE + 1;
    /// The first pair slot, behind the stations' rows; the others follow.
    pub const FIRST_PAIR: usize = FIRST_STATION + super::STATIONS * super::STATION_WORDS;
    /// How many SIDs are in the table, which stands behind the pairs.
    pub const SID_COUNT: usize = FIRST_PAIR + super::PAIRS * super::PAIR_WORDS;
    /// The first of the places that name the table's rows in rising order.
    pub const FIRST_SID_PLACE: usize = SID_COUNT + 1;
    /// The first word of row 0; the others follow.
    pub const FIRST_SID_ROW: usize = FIRST_SID_PLACE + super::SIDS;
}

/// Words of a station's row.
pub(crate) mod station_word {
    pub const TOKEN: usize = 0;
    pub const PENDING: usize = 1;
    pub const BROKEN: usize = 2;
    pub const CLIENT: usize = 3;
    pub const CLIENT_LEVEL: usize = 4;
}

/// Words of a pair slot.
pub(crate) mod pair_word {
    pub const SESSION: usize = 0;
    pub const ELEVATED: usize = 1;
    pub const FILTERED: usize = 2;
}

/// Words of a token slot.
pub(crate) const TOKEN_WORDS: usize = token_word::RESTRICTING + MAX_RESTRICTING;
/// Bytes of a DACL slot.
pub(crate) const DACL_BYTES: usize = MAX_DACL;
/// Bytes of a handle slot.
pub(crate) const HANDLE_BYTES: usize = 16;
/// Words of a station's row.
pub(crate) const STATION_WORDS: usize = station_word::CLIENT_LEVEL + 1;
/// Words of a pair slot.
pub(crate) const PAIR_WORDS: usize = pair_word::FILTERED + 1;
/// Words of a row of the SID table.
pub(crate) const SID_WORDS: usize = 9;
/// Bytes of a station's pending part.
pub(crate) const PENDING_BYTES: usize = MAX_FRAME;

/// Elements of the arrays.
pub(crate) const TOKENS_LEN: usize = TOKENS * TOKEN_WORDS;
pub(crate) const DACLS_LEN: usize = TOKENS * DACL_BYTES;
pub(crate) const CONTROL_LEN: usize = control_word::FIRST_SID_ROW + SIDS * SID_WORDS;
pub(crate) const PENDING_LEN: usize = STATIONS * PENDING_BYTES;

/// How many bytes the five arrays have together.
pub const MEMORY_BYTES: usize = (TOKENS_LEN + CONTROL_LEN) * size_of::<u64>()
    + DACLS_LEN
    + HANDLES * HANDLE_BYTES
    + PENDING_LEN;

/// The arrays in their order, with their bytes.
pub(crate) const PARTS: [(&str, u32); 5] = [
    ("tokens", (TOKENS_LEN * size_of::<u64>()) as u32),
    ("dacls", DACLS_LEN as u32),
    ("handles", (HANDLES * HANDLE_BYTES) as u32),
    ("control", (CONTROL_LEN * size_of::<u64>()) as u32),
    ("pending", PENDING_LEN as u32),
];
