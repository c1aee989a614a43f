//! The rights in a handle's mask.

/// The set of rights that a handle grants.
#[derive(Clone, Copy, Debug, Default, PartialEq, Eq)]
pub struct Mask(pub u32);

impl Mask {
    /// Install the token.
    pub const ASSIGN_PRIMARY: Mask = Mask(1);
    /// Copy the token, by duplicate or restrict.
    pub const DUPLICATE: Mask = Mask(2);
    /// Act for the token.
    pub const IMPERSONATE: Mask = Mask(4);
    /// Query the token.
    pub const QUERY: Mask = Mask(8);
    /// Adjust the privileges.
    pub const ADJUST_PRIVILEGES: Mask = Mask(0x20);
    /// Adjust the groups.
    pub const ADJUST_GROUPS: Mask = Mask(0x40);
    /// Adjust owner, primary group and DACL.
    pub const ADJUST_DEFAULT: Mask = Mask(0x80);
    /// Adjust the scope.
    pub const ADJUST_SCOPE: Mask = Mask(0x100);
    /// All rights.
    pub const ALL: Mask = Mask(0x1EF);

    /// Whether every right of `self` is in `other`.
    pub fn within(self, other: Mask) -> bool {
        self.0 & !other.0 == 0
    }

    /// Whether a handle may have this mask.
    pub fn is_valid(self) -> bool {
        self.0 != 0 && self.within(Mask::ALL)
    }
}
