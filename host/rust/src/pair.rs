//! Linked pairs, as requests 16 and 17 have them.

use crate::layout::{control_word, pair_word, PAIR_WORDS};
use crate::limits::PAIRS;
use crate::memory::Memory;

/// A linked pair: a session's elevated and filtered token, which it keeps alive.
///
/// Both are primary, of one user and of the session; their elevation is
/// [`Full`](crate::Elevation::Full) and [`Limited`](crate::Elevation::Limited). They keep it when
/// another pair replaces this one, so it does not tell whether a token is in a pair.
#[derive(Clone, Copy, Debug, PartialEq, Eq)]
#[non_exhaustive]
pub struct Pair {
    /// Whose pair it is; no two have the same.
    pub session: u64,
    /// The number of its full token.
    pub elevated: u64,
    /// The number of its limited token.
    pub filtered: u64,
}

/// The elevated token of a free slot.
const NO_TOKEN: u64 = 0;

impl Pair {
    pub(crate) fn all(memory: &Memory) -> impl Iterator<Item = Pair> + '_ {
        let slots = memory.control[control_word::FIRST_PAIR..].chunks_exact(PAIR_WORDS);
        slots.take(PAIRS).filter(|words| words[pair_word::ELEVATED] != NO_TOKEN).map(Pair::new)
    }

    fn new(words: &[u64]) -> Self {
        Pair {
            session: words[pair_word::SESSION],
            elevated: words[pair_word::ELEVATED],
            filtered: words[pair_word::FILTERED],
        }
    }

    /// The pair's other token, if this is the number of one of the two.
    pub fn partner(&self, token: u64) -> Option<u64> {
        match token {
            _ if token == self.elevated => Some(self.filtered),
            _ if token == self.filtered => Some(self.elevated),
            _ => None,
        }
    }
}

#[cfg(test)]
mod tests {
    use super::*;

    #[test]
    fn pairs_stand_behind_the_stations_and_a_free_slot_is_passed_over() {
        let mut memory = Memory::zeroed();
        assert_eq!(Pair::all(&memory).count(), 0);
        memory.control[42..48].copy_from_slice(&[5, 2, 3, 0, 0, 0]);
        memory.control[51..54].copy_from_slice(&[u64::MAX, 7, 6]);
        let first = Pair { session: 5, elevated: 2, filtered: 3 };
        let last = Pair { session: u64::MAX, elevated: 7, filtered: 6 };
        assert_eq!(Pair::all(&memory).collect::<Vec<_>>(), [first, last]);
    }
}
