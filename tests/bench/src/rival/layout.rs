//! The rival's own names of sizes, places and values, after documents 01 and 02 and docs/MEMORY.md.

use std::ops::Range;

pub const STATIONS: usize = 8;
/// Slots of tokens and of handles.
pub const TOKENS: usize = 16;
pub const HANDLES: usize = 32;
/// Places for linked pairs.
pub const PAIRS: usize = 4;

/// SIDs in the table, and those that are always there: the numbers 7 and 18.
pub const SIDS: usize = 256;
pub const FIRST_SIDS: usize = 2;
/// The number of the first SID after these.
pub const FIRST_ENTERED: u32 = 32;
/// One past the highest number.
pub const NUMBERS: usize = FIRST_ENTERED as usize + SIDS - FIRST_SIDS;

/// Most groups, restricting SIDs and DACL bytes of a token.
pub const MAX_GROUPS: usize = 64;
pub const MAX_RESTRICTING: usize = 16;
pub const MAX_DACL: usize = 256;

/// The longest body, and the most bytes of its length.
pub const MAX_BODY: usize = 2048;
pub const MAX_LENGTH_BYTES: usize = 2;
/// The shortest answer buffer.
pub const MIN_BUFFER: usize = 1024;
/// The last class of request 4, and words in the report of request 6.
pub const LAST_CLASS: u32 = 13;
pub const ENABLED_WORDS: usize = 16;

/// Words of a token's row.
pub mod word {
    pub const NUMBER: usize = 0;
    pub const MODIFIED: usize = 1;
    pub const SESSION: usize = 2;
    pub const USER: usize = 3;
    pub const TYPE: usize = 4;
    pub const LEVEL: usize = 5;
    pub const ELEVATION: usize = 6;
    pub const WRITE_RESTRICTED: usize = 7;
    pub const USER_DENY_ONLY: usize = 8;
    pub const OWNER: usize = 9;
    pub const PRIMARY_GROUP: usize = 10;
    pub const SCOPE: usize = 11;
    pub const INTEGRITY: usize = 12;
    pub const PRESENT: usize = 13;
    pub const ENABLED: usize = 14;
    pub const DEFAULT: usize = 15;
    pub const USED: usize = 16;
    pub const GROUP_COUNT: usize = 17;
    pub const RESTRICTING_COUNT: usize = 18;
    pub const DACL_LENGTH: usize = 19;
    pub const ROOT: usize = 20;
    /// The first group and the first restricting SID.
    pub const GROUPS: usize = ROOT + 1;
    pub const RESTRICTING: usize = GROUPS + super::MAX_GROUPS;
}

/// The words of a row's groups, and of the whole row.
pub const GROUPS: Range<usize> = word::GROUPS..word::RESTRICTING;
pub const TOKEN_ROW: usize = word::RESTRICTING + MAX_RESTRICTING;

/// Control words before the stations' rows.
pub const NEXT_TOKEN: usize = 0;
pub const NEXT_HANDLE: usize = 1;
pub const NEXT_NUMBERS: usize = 2;

/// Words of a station's row.
pub mod station_word {
    pub const TOKEN: usize = 0;
    pub const PENDING_COUNT: usize = 1;
    pub const BROKEN: usize = 2;
    pub const ACTS_FOR: usize = 3;
    pub const IN_FORCE: usize = 4;
}
pub const STATION_ROW: usize = station_word::IN_FORCE + 1;

/// Words of a pair's row, which follow the stations' rows; 0 for the elevated token: a free place.
pub mod pair_word {
    pub const SESSION: usize = 0;
    pub const ELEVATED: usize = 1;
    pub const FILTERED: usize = 2;
}
pub const PAIR_ROW: usize = pair_word::FILTERED + 1;

/// Words of a SID's row, the packed SID; most sub-authorities.
pub const SID_ROW: usize = 9;
pub const MAX_SUB_AUTHORITIES: u8 = 15;
/// The rows of 7 and 18: S-1-5-7 and S-1-5-18.
pub const FIRST_ROWS: [[u64; SID_ROW]; FIRST_SIDS] =
    [first_row(ANONYMOUS_SID), first_row(SYSTEM_SID)];

const fn first_row(sub_authority: u64) -> [u64; SID_ROW] {
    [0x0500_0000_0000_0101, sub_authority, 0, 0, 0, 0, 0, 0, 0]
}

/// Bytes of a token's DACL and of a station's pending bytes.
pub const DACL_ROW: usize = MAX_DACL;
pub const PENDING_ROW: usize = MAX_LENGTH_BYTES + MAX_BODY;

/// Values of a token's fields.
pub const PRIMARY: u64 = 1;
pub const IMPERSONATION: u64 = 2;
pub const ANONYMOUS: u64 = 0;
pub const IDENTIFICATION: u64 = 1;
pub const DELEGATION: u64 = 3;
pub const DEFAULT_ELEVATION: u64 = 1;
pub const FULL: u64 = 2;
pub const LIMITED: u64 = 3;
pub const INTEGRITY_STEP: u64 = 4096;
pub const MAX_INTEGRITY: u64 = 4 * INTEGRITY_STEP;
pub const ANONYMOUS_SID: u64 = 7;
pub const SYSTEM_SID: u64 = 18;

/// Privileges by number, and all of them.
pub const CREATE_TOKEN: u32 = 2;
pub const ASSIGN_PRIMARY: u32 = 3;
pub const TCB: u32 = 7;
pub const IMPERSONATE: u32 = 29;
pub const ALL_PRIVILEGES: u64 = (1 << 37) - (1 << 2);

/// Where the attributes begin in a group's word: the bit; the SID stands below.
pub const ATTRIBUTES: u32 = 32;
pub const MANDATORY: u32 = 1;
pub const ENABLED_BY_DEFAULT: u32 = 2;
pub const ENABLED: u32 = 4;
pub const OWNER: u32 = 8;
pub const DENY_ONLY: u32 = 0x10;
pub const LOGON_ID: u32 = 0xC000_0000;
/// Those that a create request may give.
pub const GIVEN: u32 = MANDATORY | ENABLED_BY_DEFAULT | OWNER | DENY_ONLY | LOGON_ID;

/// Rights of a handle's mask.
pub mod right {
    pub const ASSIGN_PRIMARY: u32 = 1;
    pub const DUPLICATE: u32 = 2;
    pub const IMPERSONATE: u32 = 4;
    pub const QUERY: u32 = 8;
    pub const ADJUST_PRIVILEGES: u32 = 0x20;
    pub const ADJUST_GROUPS: u32 = 0x40;
    pub const ADJUST_DEFAULT: u32 = 0x80;
    pub const ADJUST_SCOPE: u32 = 0x100;
    pub const ALL: u32 = 0x1EF;
}

/// Kinds of conditions, which a byte holds; and how deep one may be.
pub mod condition {
    pub const ALL_OF: u8 = 1;
    pub const ANY_OF: u8 = 2;
    pub const NEGATED: u8 = 3;
    pub const PRIVILEGE: u8 = 4;
    pub const GROUP: u8 = 5;
}
pub const MAX_DEPTH: usize = 8;

/// What asks for no change, and the single pairs that reset.
pub const NO_CHANGE: u16 = 0xFFFF;
pub const RESET_PRIVILEGES: (u32, u32) = (0, 0x8000_0000);
pub const RESET_GROUPS: (u32, u32) = (0xFFFF_FFFF, 0);
