//! The terms that tokens, requests and answers have in common.

/// Primary or impersonation.
#[derive(Clone, Copy, Debug, PartialEq, Eq)]
pub enum TokenType {
    /// May be a station's own token.
    Primary = 1,
    /// For acting as another, at its level.
    Impersonation = 2,
}

impl TokenType {
    /// Both, in the order of their numbers.
    pub const ALL: [TokenType; 2] = [TokenType::Primary, TokenType::Impersonation];

    /// Its number, 1 or 2.
    pub fn number(self) -> u32 {
        self as u32
    }

    /// The type of this number.
    pub fn from_number(number: u32) -> Option<Self> {
        Self::ALL.into_iter().find(|token_type| token_type.number() == number)
    }
}

/// The impersonation level; Anonymous on every primary token.
#[derive(Clone, Copy, Debug, PartialEq, Eq, PartialOrd, Ord)]
#[allow(missing_docs)] // the field's own terms
pub enum Level {
    Anonymous = 0,
    Identification = 1,
    Impersonation = 2,
    Delegation = 3,
}

impl Level {
    /// All of them, in the order of their numbers.
    pub const ALL: [Level; 4] =
        [Level::Anonymous, Level::Identification, Level::Impersonation, Level::Delegation];

    /// Its number, 0 to 3.
    pub fn number(self) -> u32 {
        self as u32
    }

    /// The level of this number.
    pub fn from_number(number: u32) -> Option<Self> {
        Self::ALL.into_iter().find(|level| level.number() == number)
    }
}

/// The elevation type.
#[derive(Clone, Copy, Debug, PartialEq, Eq)]
#[allow(missing_docs)] // the field's own terms
pub enum Elevation {
    Default = 1,
    Full = 2,
    Limited = 3,
}

impl Elevation {
    /// All of them, in the order of their numbers.
    pub const ALL: [Elevation; 3] = [Elevation::Default, Elevation::Full, Elevation::Limited];

    /// Its number, 1 to 3.
    pub fn number(self) -> u32 {
        self as u32
    }

    /// The elevation of this number.
    pub fn from_number(number: u32) -> Option<Self> {
        Self::ALL.into_iter().find(|elevation| elevation.number() == number)
    }
}

/// The four privilege words; privilege n is bit n.
#[derive(Clone, Copy, Debug, PartialEq, Eq)]
pub struct Privileges {
    /// Those that the token has.
    pub present: u64,
    /// Those in effect.
    pub enabled: u64,
    /// Those that a reset enables.
    pub default: u64,
    /// Those that a success needed.
    pub used: u64,
}

impl Privileges {
    /// Whether privilege n is enabled.
    pub fn enables(&self, privilege: u32) -> bool {
        has_bit(self.enabled, privilege)
    }
}

/// Whether a word has this bit.
pub(crate) fn has_bit(word: u64, bit: u32) -> bool {
    word.checked_shr(bit).is_some_and(|word| word & 1 == 1)
}

/// A group of a token.
#[derive(Clone, Copy, Debug, PartialEq, Eq)]
#[non_exhaustive]
pub struct Group {
    /// Who it is: the number of a SID.
    pub sid: u32,
    /// See [`names::GROUP_ATTRIBUTES`](crate::names::GROUP_ATTRIBUTES).
    pub attributes: u32,
}

impl Group {
    /// The group of a SID's number, with these attributes.
    pub const fn new(sid: u32, attributes: u32) -> Self {
        Group { sid, attributes }
    }
}

/// The root of an anonymous copy, and of all that is made from one.
pub const NO_ROOT: u64 = 0;

/// The number that stands for no client in the answer to request 13.
pub const NO_CLIENT: u64 = 0;

/// A token that a station acts for, and so keeps alive.
#[derive(Clone, Copy, Debug, PartialEq, Eq)]
#[non_exhaustive]
pub struct Client {
    /// The number of the token, which is for impersonation.
    pub token: u64,
    /// The level in force, as request 12 answered it: at most the token's own.
    pub level: Level,
}

impl Client {
    /// The token of this number, at this level.
    pub const fn new(token: u64, level: Level) -> Self {
        Client { token, level }
    }
}
