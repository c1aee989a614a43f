//! Handles and tokens in their slots.

use super::layout::{
    pair_word, right, station_word, word, DACL_ROW, NEXT_HANDLE, NEXT_TOKEN, TOKEN_ROW,
};
use super::memory::{Handle, Memory};
use super::reader::{refuse, Refused};

/// Whether a handle may have this mask.
#[inline]
pub fn is_mask(mask: u32) -> bool {
    mask != 0 && mask & !right::ALL == 0
}

impl Memory<'_> {
    /// The slot of the station's live handle; refusal 2.
    pub fn find(&self, station: usize, number: u32) -> Result<usize, Refused> {
        let is_it =
            |handle: &Handle| handle.number == number && usize::from(handle.station) == station;
        let slot = self.handles.iter().position(is_it).filter(|_| number != 0);
        slot.ok_or(Refused { status: 2, size: 0 })
    }

    /// The handle and its token's slot when the handle has the right; refusals 2 and 3.
    pub fn granted(
        &self,
        station: usize,
        number: u32,
        right: u32,
    ) -> Result<(Handle, usize), Refused> {
        let handle = self.handles[self.find(station, number)?];
        refuse(3, u32::from(handle.mask) & right != 0)?;
        Ok((handle, self.slot(handle.token)))
    }

    /// The slot of a live token.
    pub fn slot(&self, number: u64) -> usize {
        self.tokens.iter().position(|row| row[word::NUMBER] == number).unwrap_or(0)
    }

    /// The slot of the station's primary token.
    pub fn own(&self, station: usize) -> usize {
        self.slot(self.stations[station][station_word::TOKEN])
    }

    /// The slot of the station's token when the privilege is enabled there; refusal 4.
    pub fn held(&self, station: usize, privilege: u32) -> Result<usize, Refused> {
        let own = self.own(station);
        refuse(4, self.tokens[own][word::ENABLED] >> privilege & 1 == 1)?;
        Ok(own)
    }

    /// The lowest free handle slot; refusal 8.
    pub fn free_handle(&self) -> Result<usize, Refused> {
        let slot = self.handles.iter().position(|handle| handle.number == 0);
        let slot = slot.filter(|_| self.next[NEXT_HANDLE] < u32::MAX.into());
        slot.ok_or(Refused { status: 8, size: 0 })
    }

    /// The lowest free token slot; refusal 8.
    pub fn free_token(&self) -> Result<usize, Refused> {
        let slot = self.tokens.iter().position(|row| row[word::NUMBER] == 0);
        let slot = slot.filter(|_| self.next[NEXT_TOKEN] < u64::MAX);
        slot.ok_or(Refused { status: 8, size: 0 })
    }

    /// A new handle in a free slot; gives its number.
    pub fn place_handle(&mut self, slot: usize, station: usize, token: u64, mask: u32) -> u64 {
        let number = self.next[NEXT_HANDLE];
        self.next[NEXT_HANDLE] += 1;
        let (station, mask) = (station as u16, mask as u16);
        self.handles[slot] = Handle { station, mask, number: number as u32, token };
        number
    }

    /// The next token number, given to the token in the slot.
    pub fn number_token(&mut self, slot: usize) -> u64 {
        let number = self.next[NEXT_TOKEN];
        self.next[NEXT_TOKEN] += 1;
        self.tokens[slot][word::NUMBER] = number;
        self.tokens[slot][word::MODIFIED] = number;
        number
    }

    /// Frees the token when nothing refers to it any more.
    pub fn free_if_last(&mut self, number: u64) {
        let has_handle =
            self.handles.iter().fold(false, |has, handle| has | (handle.token == number));
        let has_station = self.stations.iter().fold(false, |has, words| {
            has | (words[station_word::TOKEN] == number) | (words[station_word::ACTS_FOR] == number)
        });
        let has_pair = self.pairs.iter().fold(false, |has, words| {
            has | (words[pair_word::ELEVATED] == number) | (words[pair_word::FILTERED] == number)
        });
        if !has_handle && !has_station && !has_pair {
            let slot = self.slot(number);
            self.tokens[slot] = [0; TOKEN_ROW];
            self.dacls[slot] = [0; DACL_ROW];
        }
    }

    /// Steps the modified number of the token in the slot.
    pub fn step_modified(&mut self, slot: usize) {
        self.tokens[slot][word::MODIFIED] = self.tokens[slot][word::MODIFIED].wrapping_add(1);
    }
}
