//! The refusals, by name and number.

use core::fmt;

/// Why the broker said no.
///
/// 1 to 10 and 14 are the status of an [`Answer`](crate::Answer): 1 to 9 and 14 use up their request
/// and change no token, no handle, no pair, no number and no SID of the table, the first of 1 to 7,
/// 14, 8, 9 where several apply; 10 answers the byte that breaks a stream. 11 to 13 refuse a whole call, which then changes
/// nothing at all.
///
/// ```
/// use obriska::Refusal;
/// assert_eq!(Refusal::Handle.number(), 2);
/// assert_eq!(Refusal::from_number(2), Some(Refusal::Handle));
/// assert_eq!(Refusal::Handle.to_string(), "refused 2: not a live handle of this station");
/// ```
#[derive(Clone, Copy, Debug, PartialEq, Eq, Hash)]
#[repr(u32)]
#[non_exhaustive]
pub enum Refusal {
    /// Unknown request, or a body not in its layout, or bytes left over; a packed SID that is none; a
    /// condition deeper than [`MAX_DEPTH`](crate::MAX_DEPTH).
    Layout = 1,
    /// Not a live handle of this station.
    Handle = 2,
    /// The handle lacks the right.
    Right = 3,
    /// A privilege is not enabled on the station's own token.
    Privilege = 4,
    /// A bad field or entry, an unknown class, installing a token that is not primary, acting for one
    /// that is, restricting a restricted one to none of its SIDs, or to write-restricted where it is
    /// not, linking two that can be no pair, an unknown privilege in a condition, or, in requests 3
    /// and 10, a SID's number that is not in the table.
    Field = 5,
    /// An entry names a mandatory, deny-only or logon group, or disables one with the user's SID.
    Protected = 6,
    /// Installing a token of another user or session; or acting for an unrestricted one while
    /// restricted, unless Impersonate is held.
    Mismatch = 7,
    /// No free slot, no number left, or too many restricting SIDs for an unrestricted token; linking
    /// for a fifth session; more new SIDs than the table has room for.
    Full = 8,
    /// The report is larger than the capacity.
    Capacity = 9,
    /// The stream is broken until the station is reconnected.
    Broken = 10,
    /// There is no such station.
    Station = 11,
    /// The answer buffer is too short.
    Buffer = 12,
    /// The memory is not valid.
    Memory = 13,
    /// The token is in no linked pair.
    NotLinked = 14,
}

impl Refusal {
    /// All of them, in the order of their numbers.
    pub const ALL: [Refusal; 14] = [
        Refusal::Layout,
        Refusal::Handle,
        Refusal::Right,
        Refusal::Privilege,
        Refusal::Field,
        Refusal::Protected,
        Refusal::Mismatch,
        Refusal::Full,
        Refusal::Capacity,
        Refusal::Broken,
        Refusal::Station,
        Refusal::Buffer,
        Refusal::Memory,
        Refusal::NotLinked,
    ];

    /// Its number, 1 to 14.
    pub fn number(self) -> u32 {
        self as u32
    }

    /// The refusal of this number.
    pub fn from_number(number: u32) -> Option<Self> {
        Self::ALL.into_iter().find(|refusal| refusal.number() == number)
    }

    /// What it means.
    pub fn meaning(self) -> &'static str {
        match self {
            Refusal::Layout => "unknown request, or not in its layout",
            Refusal::Handle => "not a live handle of this station",
            Refusal::Right => "the handle lacks the right",
            Refusal::Privilege => "a privilege is not enabled on the own token",
            Refusal::Field => "a field or entry is bad",
            Refusal::Protected => {
                "a mandatory, deny-only or logon group, or disabling one with the user's SID"
            }
            Refusal::Mismatch => {
                "another user or session, or unrestricted while the own token is restricted"
            }
            Refusal::Full => "no slot or number left, or too many SIDs",
            Refusal::Capacity => "the report is larger than the capacity",
            Refusal::Broken => "the stream is broken until a reconnect",
            Refusal::Station => "there is no such station",
            Refusal::Buffer => "the answer buffer is too short",
            Refusal::Memory => "the memory is not valid",
            Refusal::NotLinked => "the token is in no linked pair",
        }
    }
}

impl fmt::Display for Refusal {
    fn fmt(&self, f: &mut fmt::Formatter<'_>) -> fmt::Result {
        write!(f, "refused {}: {}", self.number(), self.meaning())
    }
}

#[cfg(feature = "std")]
impl std::error::Error for Refusal {}
