//! The refusals, by name and number.

/// Refusals 1 to 9 and 14 answer a request, 10 answers the byte that breaks a stream, and 11 to 13
/// refuse a whole call. A request gets the first of 1 to 7, 14, 8, 9 that applies.
#[derive(Clone, Copy, Debug, PartialEq, Eq)]
pub enum Refusal {
    /// Unknown request, or a body not in its layout, or bytes left; so also a condition of unknown kind
    /// or too deep, and what is no packed SID.
    Layout,
    /// The handle is not a live one of this station.
    Handle,
    /// The handle's mask lacks the right.
    Right,
    /// The privilege is not held.
    Privilege,
    /// A bad field or entry, an unknown class, installing a non-primary token, acting for a primary
    /// one, restricting a restricted one to none of its SIDs, or to write-restricted where it is not,
    /// linking tokens that can't be a pair, an unknown privilege anywhere in a condition, or a SID
    /// number that is not in the table.
    Field,
    /// A mandatory, deny-only or logon group, or disabling one with the user's SID.
    Protected,
    /// The token to install is of another user or session; or the own token is restricted, the one
    /// to act for is not, and Impersonate is not held.
    Mismatch,
    /// No slot is free, no number is left, four other sessions have pairs, there are too many
    /// restricting SIDs for an unrestricted token, or more new SIDs than the table has room for.
    Full,
    /// The query's answer, of this size, is larger than the given capacity.
    Capacity(u32),
    /// The stream is broken.
    Broken,
    /// There is no such station.
    Station,
    /// The answer buffer is too short.
    Buffer,
    /// The memory is not valid.
    Memory,
    /// The token is in no pair.
    Unlinked,
}

impl Refusal {
    /// The one with the largest number.
    pub const LAST: Refusal = Refusal::Unlinked;

    /// The number that documents 01 and 02 give the refusal.
    pub fn number(self) -> u32 {
        match self {
            Refusal::Layout => 1,
            Refusal::Handle => 2,
            Refusal::Right => 3,
            Refusal::Privilege => 4,
            Refusal::Field => 5,
            Refusal::Protected => 6,
            Refusal::Mismatch => 7,
            Refusal::Full => 8,
            Refusal::Capacity(_) => 9,
            Refusal::Broken => 10,
            Refusal::Station => 11,
            Refusal::Buffer => 12,
            Refusal::Memory => 13,
            Refusal::Unlinked => 14,
        }
    }

    /// `Ok` when the check passes, else this refusal.
    pub(crate) fn unless(self, passes: bool) -> Result<(), Refusal> {
        if passes {
            Ok(())
        } else {
            Err(self)
        }
    }
}
