//! Tokens and their groups.

use crate::privileges::{Privileges, ALL_PRIVILEGES};

/// The SID of an anonymous copy's user.
pub const ANONYMOUS_SID: u32 = 7;
/// The SID of the first token's user.
pub const SYSTEM_SID: u32 = 18;
/// The root of an anonymous copy, and of whatever is made from one.
pub const NO_ROOT: u64 = 0;
/// Most groups of a token.
pub const MAX_GROUPS: usize = 64;
/// Most restricting SIDs of a token.
pub const MAX_RESTRICTING: usize = 16;
/// Longest default DACL in bytes.
pub const MAX_DACL: usize = 256;
/// The integrity values.
pub const INTEGRITY_LEVELS: [u32; 5] = [0, 4096, 8192, 12288, HIGHEST_INTEGRITY];
/// The first token's integrity.
const HIGHEST_INTEGRITY: u32 = 16384;

/// Primary or impersonation.
#[derive(Clone, Copy, Debug, PartialEq, Eq)]
pub enum TokenType {
    /// May be a station's token.
    Primary = 1,
    /// Has a level.
    Impersonation = 2,
}

impl TokenType {
    /// The type of this number.
    pub fn from_number(number: u64) -> Option<Self> {
        [TokenType::Primary, TokenType::Impersonation]
            .into_iter()
            .find(|&kind| kind as u64 == number)
    }
}

/// The impersonation level.
#[derive(Clone, Copy, Debug, PartialEq, Eq, PartialOrd, Ord)]
pub enum Level {
    /// Also the level of every primary token.
    Anonymous = 0,
    /// May be looked at.
    Identification = 1,
    /// May act here.
    Impersonation = 2,
    /// May act elsewhere.
    Delegation = 3,
}

impl Level {
    /// The level of this number.
    pub fn from_number(number: u64) -> Option<Self> {
        [Level::Anonymous, Level::Identification, Level::Impersonation, Level::Delegation]
            .into_iter()
            .find(|&level| level as u64 == number)
    }
}

/// The elevation type.
#[derive(Clone, Copy, Debug, PartialEq, Eq)]
pub enum Elevation {
    /// Every token that a request makes.
    Default = 1,
    /// The elevated one of a pair.
    Full = 2,
    /// The filtered one of a pair.
    Limited = 3,
}

impl Elevation {
    /// The elevation of this number.
    pub fn from_number(number: u64) -> Option<Self> {
        [Elevation::Default, Elevation::Full, Elevation::Limited]
            .into_iter()
            .find(|&elevation| elevation as u64 == number)
    }
}

/// A group of a token.
#[derive(Clone, Copy, Debug, Default, PartialEq, Eq)]
pub struct Group {
    /// Who it is.
    pub sid: u32,
    /// The attribute bits below.
    pub attributes: u32,
}

impl Group {
    /// No entry may switch it.
    pub const MANDATORY: u32 = 1;
    /// Enabled at creation and by a reset; the papers' "value 2".
    pub const ENABLED_BY_DEFAULT: u32 = 2;
    /// In effect.
    pub const ENABLED: u32 = 4;
    /// May be the owner.
    pub const OWNER: u32 = 8;
    /// Never enabled (again).
    pub const DENY_ONLY: u32 = 0x10;
    /// The logon group; both bits or neither.
    pub const LOGON_ID: u32 = 0xC000_0000;
    /// The attributes that a create request may give.
    pub const GIVEN: u32 =
        Self::MANDATORY | Self::ENABLED_BY_DEFAULT | Self::OWNER | Self::DENY_ONLY | Self::LOGON_ID;
    /// All attributes.
    pub const ALL: u32 = Self::GIVEN | Self::ENABLED;

    /// Whether all the bits are set.
    pub fn has(self, bits: u32) -> bool {
        self.attributes & bits == bits
    }

    /// Whether the logon bits are both set or both clear.
    pub fn logon_is_whole(self) -> bool {
        self.has(Self::LOGON_ID) || self.attributes & Self::LOGON_ID == 0
    }

    /// Whether a new token of this user must have the group enabled by default.
    pub fn needs_default(self, user: u32) -> bool {
        self.has(Self::MANDATORY) || self.has(Self::LOGON_ID) || self.sid == user
    }

    /// The group with its enabled bit as given.
    #[must_use]
    pub fn with_enabled(self, enabled: bool) -> Self {
        let others = self.attributes & !Self::ENABLED;
        Group { attributes: if enabled { others | Self::ENABLED } else { others }, ..self }
    }

    /// The group in its default state; a deny-only one stays as it is.
    #[must_use]
    pub fn reset(self) -> Self {
        if self.has(Self::DENY_ONLY) {
            self
        } else {
            self.with_enabled(self.has(Self::ENABLED_BY_DEFAULT))
        }
    }

    /// The group for deny only, no longer enabled.
    #[must_use]
    pub fn denied(self) -> Self {
        let denied = Group { attributes: self.attributes | Self::DENY_ONLY, ..self };
        denied.with_enabled(false)
    }
}

/// An access token.
#[derive(Clone, Debug, PartialEq, Eq)]
pub struct Token {
    /// Its own number, never 0.
    pub number: u64,
    /// The number of the started or created token that it descends from, freed or not; its own
    /// for those. Or [`NO_ROOT`].
    pub root: u64,
    /// Steps at each adjustment.
    pub modified: u64,
    /// The session of its user.
    pub session: u64,
    /// The user's SID.
    pub user: u32,
    /// Primary or impersonation.
    pub kind: TokenType,
    /// The impersonation level.
    pub level: Level,
    /// The elevation type.
    pub elevation: Elevation,
    /// The four privilege words.
    pub privileges: Privileges,
    /// At most [`MAX_GROUPS`].
    pub groups: Vec<Group>,
    /// At most [`MAX_RESTRICTING`].
    pub restricting: Vec<u32>,
    /// Restricting SIDs count for writes only.
    pub write_restricted: bool,
    /// The user counts for deny only.
    pub user_deny_only: bool,
    /// Index of the owner: 0 is the user, k is group k - 1.
    pub owner: u16,
    /// Index of the primary group, likewise.
    pub primary_group: u16,
    /// At most [`MAX_DACL`] bytes.
    pub dacl: Vec<u8>,
    /// The interactivity scope.
    pub scope: u32,
    /// One of [`INTEGRITY_LEVELS`].
    pub integrity: u32,
}

impl Token {
    /// A primary token of this user and session with nothing else, which descends from no other.
    pub fn bare(number: u64, user: u32, session: u64) -> Self {
        Token {
            number,
            root: number,
            modified: number,
            session,
            user,
            kind: TokenType::Primary,
            level: Level::Anonymous,
            elevation: Elevation::Default,
            privileges: Privileges::default(),
            groups: Vec::new(),
            restricting: Vec::new(),
            write_restricted: false,
            user_deny_only: false,
            owner: 0,
            primary_group: 0,
            dacl: Vec::new(),
            scope: 0,
            integrity: 0,
        }
    }

    /// Token 1, which every station has at the start.
    pub fn first() -> Self {
        Token {
            privileges: Privileges::new(ALL_PRIVILEGES, ALL_PRIVILEGES),
            integrity: HIGHEST_INTEGRITY,
            ..Token::bare(1, SYSTEM_SID, 999)
        }
    }

    /// Whether it has restricting SIDs; the marks alone restrict nothing.
    pub fn is_restricted(&self) -> bool {
        !self.restricting.is_empty()
    }

    /// The group that an index of owner or primary group names; `None` for the user.
    fn group_at(&self, index: u16) -> Option<&Group> {
        self.groups.get(usize::from(index).checked_sub(1)?)
    }

    /// Whether the index names the user or an owner group.
    pub fn may_own(&self, index: u16) -> bool {
        index == 0 || self.group_at(index).is_some_and(|group| group.has(Group::OWNER))
    }

    /// Whether the index names the user or a group.
    pub fn may_be_primary_group(&self, index: u16) -> bool {
        index == 0 || self.group_at(index).is_some()
    }

    /// The SID that an allowed index names.
    pub fn sid_at(&self, index: u16) -> u32 {
        self.group_at(index).map_or(self.user, |group| group.sid)
    }

    /// Up by one; after the largest value comes 0.
    pub fn step_modified(&mut self) {
        self.modified = self.modified.wrapping_add(1);
    }
}
