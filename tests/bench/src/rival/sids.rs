//! The SIDs of a token's enabled groups, hashed.

use super::groups::attribute;
use super::layout::{ENABLED, MAX_GROUPS};

/// Places of the table: a power of two, four for each.
const PLACES: usize = (4 * MAX_GROUPS).next_power_of_two();

/// Each SID stands at its hash or in the next free place. A free one has 0, which is kept apart.
pub struct Sids {
    places: [u32; PLACES],
    has_zero: bool,
}

impl Sids {
    pub fn new(groups: &[u64]) -> Self {
        let mut sids = Sids { places: [0; PLACES], has_zero: false };
        groups
            .iter()
            .filter(|&&group| attribute(group, ENABLED))
            .for_each(|&group| sids.add(group as u32));
        sids
    }

    #[inline]
    fn hash(sid: u32) -> usize {
        (sid.wrapping_mul(0x9E37_79B1) >> (u32::BITS - PLACES.ilog2())) as usize
    }

    fn add(&mut self, sid: u32) {
        let mut at = Self::hash(sid);
        while self.places[at] != 0 && self.places[at] != sid {
            at = (at + 1) % PLACES;
        }
        self.places[at] = sid;
        self.has_zero |= sid == 0;
    }

    #[inline]
    pub fn has(&self, sid: u32) -> bool {
        let mut at = Self::hash(sid);
        while self.places[at] != sid {
            if self.places[at] == 0 {
                return false;
            }
            at = (at + 1) % PLACES;
        }
        sid != 0 || self.has_zero
    }
}
