//! Groups: their words, and sets of them by index.

use super::layout::{ATTRIBUTES, LOGON_ID, MANDATORY, MAX_GROUPS};

/// Groups in a word of a set.
pub const WORD_GROUPS: usize = u64::BITS as usize;
/// Words of a set.
pub const SET_WORDS: usize = MAX_GROUPS.div_ceil(WORD_GROUPS);

/// Attributes as they stand in a group's word.
#[inline]
pub const fn in_word(attributes: u32) -> u64 {
    (attributes as u64) << ATTRIBUTES
}

/// Whether a group's word has any of the attributes.
#[inline]
pub fn attribute(group: u64, attributes: u32) -> bool {
    (group >> ATTRIBUTES) as u32 & attributes != 0
}

/// Whether a new group must be enabled by default whatever its SID: mandatory, logon.
pub fn is_fixed(group: u64) -> bool {
    attribute(group, MANDATORY | LOGON_ID)
}

/// A set of groups: group i at bit i % 64 of word i / 64.
#[derive(Default)]
pub struct Set(pub [u64; SET_WORDS]);

impl Set {
    /// Adds a group; false if no token has one of this index, or if it is in the set already.
    #[inline]
    pub fn add(&mut self, index: u32) -> bool {
        let Some(word) = self.0.get_mut(index as usize / WORD_GROUPS) else { return false };
        let bit = 1 << (index as usize % WORD_GROUPS);
        let is_new = *word & bit == 0;
        *word |= bit;
        is_new
    }

    /// Whether every group of the set is among the first so many.
    pub fn is_below(&self, count: usize) -> bool {
        let past = |(at, word): (usize, &u64)| {
            let below = count.saturating_sub(at * WORD_GROUPS);
            word.checked_shr(below as u32).unwrap_or(0)
        };
        self.0.iter().enumerate().map(past).fold(0, |all, past| all | past) == 0
    }
}
