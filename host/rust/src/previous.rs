//! What requests 5 and 6 report.

use core::fmt;

use crate::limits::GROUP_WORDS;
use crate::number;
use crate::terms::has_bit;

/// How a privilege was before request 5.
#[derive(Clone, Copy, Debug, PartialEq, Eq)]
pub enum PrivilegeState {
    /// The token did not have it.
    Absent,
    /// The token had it, but not in effect.
    Disabled,
    /// It was in effect.
    Enabled,
}

impl fmt::Display for PrivilegeState {
    fn fmt(&self, f: &mut fmt::Formatter<'_>) -> fmt::Result {
        f.write_str(match self {
            PrivilegeState::Absent => "absent",
            PrivilegeState::Disabled => "disabled",
            PrivilegeState::Enabled => "enabled",
        })
    }
}

/// The report of request 5: two words of before the change, at the bits of the privileges that the
/// request named; after a reset, whole. [`Restore`](crate::Restore) puts back what it says.
///
/// ```
/// use obriska::{Broker, PreviousPrivileges, PrivilegeState};
///
/// let mut broker = Broker::start();
/// broker.feed(0, &[0x02, 0x01, 0x28])?;
/// let disable_tcb = [0x05, 0x05, 0x01, 0x01, 0x07, 0x00];
/// for state in [PrivilegeState::Enabled, PrivilegeState::Disabled] {
///     let answers = broker.feed(0, &disable_tcb)?;
///     let previous = PreviousPrivileges::read(answers[0].fields()).expect("two words");
///     assert_eq!(previous.state(7), state);
/// }
/// # Ok::<(), obriska::Refusal>(())
/// ```
#[derive(Clone, Copy, Debug, PartialEq, Eq)]
#[non_exhaustive]
pub struct PreviousPrivileges {
    /// Those that the token had; privilege n is bit n.
    pub present: u64,
    /// Those of them that were in effect.
    pub enabled: u64,
}

impl PreviousPrivileges {
    /// The report of these two words.
    pub const fn new(present: u64, enabled: u64) -> Self {
        PreviousPrivileges { present, enabled }
    }

    /// The report that the fields of a success are; `None` unless they are two numbers.
    pub fn read(fields: &[u8]) -> Option<Self> {
        let (present, rest) = number::read(fields)?;
        let (enabled, rest) = number::read(rest)?;
        rest.is_empty().then_some(PreviousPrivileges { present, enabled })
    }

    /// How privilege n was: it has to be one that the request named, or any after a reset.
    pub fn state(&self, privilege: u32) -> PrivilegeState {
        match (has_bit(self.present, privilege), has_bit(self.enabled, privilege)) {
            (false, _) => PrivilegeState::Absent,
            (true, false) => PrivilegeState::Disabled,
            (true, true) => PrivilegeState::Enabled,
        }
    }
}

/// The report of request 6: the groups that were enabled before, group i at bit i % 64 of word
/// i / 64.
#[derive(Clone, Copy, Debug, PartialEq, Eq)]
pub struct PreviousGroups {
    /// The words; a token's [`MAX_GROUPS`](crate::MAX_GROUPS) groups stand in the first one.
    pub words: [u64; GROUP_WORDS],
}

impl PreviousGroups {
    /// Whether the group of this index was enabled.
    pub fn enabled(&self, index: usize) -> bool {
        const BITS: usize = u64::BITS as usize;
        self.words.get(index / BITS).is_some_and(|word| word >> (index % BITS) & 1 == 1)
    }

    /// The indexes of those that were, upward.
    pub fn indexes(&self) -> impl Iterator<Item = usize> + '_ {
        (0..GROUP_WORDS * u64::BITS as usize).filter(|&index| self.enabled(index))
    }
}

#[cfg(test)]
mod tests {
    use super::*;

    #[test]
    fn groups_are_told_by_their_bits() {
        let mut words = [0; GROUP_WORDS];
        (words[0], words[15]) = (9, 1 << 63);
        let previous = PreviousGroups { words };
        assert!(previous.indexes().eq([0, 3, 1023]));
        assert!(!previous.enabled(1) && !previous.enabled(1024));
    }

    #[test]
    fn a_report_is_two_words_present_before_enabled() {
        let previous = PreviousPrivileges { present: 0x84, enabled: 0x80 };
        assert_eq!(PreviousPrivileges::read(&[0x84, 0x01, 0x80, 0x01]), Some(previous));
        for fields in [&[][..], &[4], &[4, 4, 4], &[4, 0x80]] {
            assert_eq!(PreviousPrivileges::read(fields), None);
        }
    }

    #[test]
    fn a_privilege_was_absent_disabled_or_enabled() {
        let previous = PreviousPrivileges { present: 0x84, enabled: 0x80 };
        let text = |privilege| previous.state(privilege).to_string();
        assert_eq!([7, 2, 3, 64].map(text), ["enabled", "disabled", "absent", "absent"]);
    }
}
