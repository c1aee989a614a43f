//! The SID table: which number each SID has.

use crate::sid::Sid;
use crate::token::{ANONYMOUS_SID, SYSTEM_SID};

/// How many SIDs the table may have.
pub const SIDS: usize = 256;
/// The number of the first SID that is entered; the next ones follow.
pub const FIRST_ENTERED: u32 = 32;
/// The numbers of the SIDs that stand in the table from the start.
const AT_START: [u32; 2] = [ANONYMOUS_SID, SYSTEM_SID];

/// The SIDs in the order of their numbers, which is that in which they were entered.
#[derive(Clone, Debug, PartialEq, Eq)]
pub struct SidTable(Vec<Sid>);

impl Default for SidTable {
    fn default() -> Self {
        SidTable(AT_START.map(Sid::nt).to_vec())
    }
}

impl SidTable {
    /// The table of these SIDs.
    pub(crate) fn of(sids: Vec<Sid>) -> Self {
        SidTable(sids)
    }

    /// The number that the SID in this place has, 0 being the first.
    pub fn number_at(place: usize) -> u32 {
        let entered = || FIRST_ENTERED + (place - AT_START.len()) as u32;
        AT_START.get(place).copied().unwrap_or_else(entered)
    }

    /// The SIDs, in the order of their numbers.
    pub fn sids(&self) -> &[Sid] {
        &self.0
    }

    /// The numbers in the table, upward.
    pub fn numbers(&self) -> Vec<u32> {
        (0..self.0.len()).map(Self::number_at).collect()
    }

    /// Whether it is a number in the table.
    pub fn has(&self, number: u32) -> bool {
        self.sid(number).is_some()
    }

    /// The SID of this number.
    pub fn sid(&self, number: u32) -> Option<Sid> {
        let place = (0..self.0.len()).find(|&place| Self::number_at(place) == number)?;
        Some(self.0[place])
    }

    /// The number of the SID, if it has one.
    pub fn number(&self, sid: Sid) -> Option<u32> {
        self.0.iter().position(|&other| other == sid).map(Self::number_at)
    }

    /// The number of the SID, which is entered if it is new; the table may then have too many.
    pub fn enter(&mut self, sid: Sid) -> u32 {
        if let Some(number) = self.number(sid) {
            return number;
        }
        self.0.push(sid);
        Self::number_at(self.0.len() - 1)
    }

    /// Whether it has no more SIDs than it may have.
    pub fn fits(&self) -> bool {
        self.0.len() <= SIDS
    }
}
