//! The four privilege words of a token. Privilege n is bit n.

/// The first privilege that exists.
pub const FIRST_PRIVILEGE: u32 = 2;
/// The last.
pub const LAST_PRIVILEGE: u32 = 36;
/// All that exist.
pub const ALL_PRIVILEGES: u64 = (1 << (LAST_PRIVILEGE + 1)) - (1 << FIRST_PRIVILEGE);
/// Create tokens.
pub const CREATE_TOKEN: u32 = 2;
/// Install primary tokens.
pub const ASSIGN_PRIMARY: u32 = 3;
/// Act as part of the trusted base.
pub const TCB: u32 = 7;
/// Act above Identification for tokens of another user or restriction, and for unrestricted ones though
/// restricted.
pub const IMPERSONATE: u32 = 29;

/// A token's privileges.
#[derive(Clone, Copy, Debug, Default, PartialEq, Eq)]
pub struct Privileges {
    /// The privileges that the token has.
    pub present: u64,
    /// Those in effect.
    pub enabled: u64,
    /// Those that a reset enables.
    pub default: u64,
    /// Those ever used.
    pub used: u64,
}

impl Privileges {
    /// Present as given, with the default ones enabled and none used.
    pub fn new(present: u64, default: u64) -> Self {
        Privileges { present, enabled: default, default, used: 0 }
    }

    /// Enables the named ones that are present.
    #[must_use]
    pub fn enable(self, named: u64) -> Self {
        Privileges { enabled: self.enabled | (named & self.present), ..self }
    }

    /// Disables the named ones.
    #[must_use]
    pub fn disable(self, named: u64) -> Self {
        Privileges { enabled: self.enabled & !named, ..self }
    }

    /// Removes the named ones for good; `used` stays.
    #[must_use]
    pub fn remove(self, named: u64) -> Self {
        Privileges {
            present: self.present & !named,
            enabled: self.enabled & !named,
            default: self.default & !named,
            used: self.used,
        }
    }

    /// Enables the default ones and no others.
    #[must_use]
    pub fn reset(self) -> Self {
        Privileges { enabled: self.default, ..self }
    }

    /// Whether the privilege is enabled.
    pub fn holds(self, privilege: u32) -> bool {
        self.enabled >> privilege & 1 == 1
    }
}
