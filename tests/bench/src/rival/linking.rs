//! Requests 16 and 17: linking two tokens, and getting to the other of a pair.

use super::layout::{
    pair_word, right, word, FULL, IDENTIFICATION, IMPERSONATION, LIMITED, PRIMARY, TCB,
};
use super::memory::Memory;
use super::reader::{refuse, Body, Reader, Refused};
use super::requests::Served;

impl Memory<'_> {
    pub fn link(&mut self, station: usize, reader: &mut Reader) -> Served {
        let (elevated, filtered, session) = (reader.u32(), reader.u32(), reader.u64());
        reader.end()?;
        let (first, second) = (self.find(station, elevated)?, self.find(station, filtered)?);
        let (first, second) = (self.handles[first], self.handles[second]);
        refuse(3, u32::from(first.mask & second.mask) & right::DUPLICATE != 0)?;
        let own = self.held(station, TCB)?;
        let (elevated, filtered) = (self.slot(first.token), self.slot(second.token));
        let (up, down) = (&self.tokens[elevated], &self.tokens[filtered]);
        refuse(
            5,
            elevated != filtered
                && up[word::TYPE] == PRIMARY
                && down[word::TYPE] == PRIMARY
                && up[word::SESSION] == session
                && down[word::SESSION] == session
                && up[word::USER] == down[word::USER]
                && up[word::ELEVATION] != LIMITED
                && down[word::ELEVATION] != FULL,
        )?;
        let place = self.pair_place(session)?;
        self.tokens[elevated][word::ELEVATION] = FULL;
        self.tokens[filtered][word::ELEVATION] = LIMITED;
        self.tokens[own][word::USED] |= 1 << TCB;
        let old = std::mem::replace(&mut self.pairs[place], [session, first.token, second.token]);
        for number in [old[pair_word::ELEVATED], old[pair_word::FILTERED]] {
            if number != 0 {
                self.free_if_last(number);
            }
        }
        Ok(())
    }

    pub fn get_linked(&mut self, station: usize, reader: &mut Reader, out: &mut Body) -> Served {
        let handle = reader.u32();
        reader.end()?;
        let (handle, _) = self.granted(station, handle, right::QUERY)?;
        let partner = self.partner(handle.token);
        refuse(14, partner != 0)?;
        let own = self.own(station);
        if self.tokens[own][word::ENABLED] >> TCB & 1 == 1 {
            let place = self.free_handle()?;
            self.tokens[own][word::USED] |= 1 << TCB;
            out.number(self.place_handle(place, station, partner, right::ALL));
            return Ok(());
        }
        let (slot, place) = (self.free_token()?, self.free_handle()?);
        self.copy(self.slot(partner), slot);
        let row = &mut self.tokens[slot];
        row[word::TYPE] = IMPERSONATION;
        row[word::LEVEL] = IDENTIFICATION;
        let number = self.number_token(slot);
        out.number(self.place_handle(place, station, number, right::QUERY));
        Ok(())
    }

    /// The other token of the pair, 0 if there is none.
    fn partner(&self, number: u64) -> u64 {
        let mut partner = 0;
        for pair in self.pairs.iter() {
            let (elevated, filtered) = (pair[pair_word::ELEVATED], pair[pair_word::FILTERED]);
            partner |= if elevated == number { filtered } else { 0 };
            partner |= if filtered == number { elevated } else { 0 };
        }
        partner
    }

    /// The place of the session's pair, else the first free one; refusal 8.
    fn pair_place(&self, session: u64) -> Result<usize, Refused> {
        let is_free = |pair: &[u64; 3]| pair[pair_word::ELEVATED] == 0;
        let is_its = |pair: &[u64; 3]| !is_free(pair) && pair[pair_word::SESSION] == session;
        let own = self.pairs.iter().position(is_its);
        own.or_else(|| self.pairs.iter().position(is_free)).ok_or(Refused { status: 8, size: 0 })
    }
}
