//! Requests 12 and 13: acting for another token and ceasing to.

use super::layout::{right, station_word, word, IDENTIFICATION, IMPERSONATE, IMPERSONATION};
use super::memory::Memory;
use super::reader::{refuse, Body, Reader};
use super::requests::Served;

impl Memory<'_> {
    pub fn impersonate(&mut self, station: usize, reader: &mut Reader, out: &mut Body) -> Served {
        let handle = reader.u32();
        reader.end()?;
        let (handle, slot) = self.granted(station, handle, right::IMPERSONATE)?;
        let own = self.own(station);
        let (server, client) = (&self.tokens[own], &self.tokens[slot]);
        refuse(5, client[word::TYPE] == IMPERSONATION)?;
        let [server_restricted, client_restricted] =
            [server, client].map(|row| row[word::RESTRICTING_COUNT] > 0);
        let differs =
            server[word::USER] != client[word::USER] || server_restricted != client_restricted;
        let held = server[word::ENABLED] >> IMPERSONATE & 1 == 1;
        refuse(7, !differs || held || !server_restricted || client_restricted)?;
        let capped = differs && !held || client[word::INTEGRITY] > server[word::INTEGRITY];
        let most = if capped { IDENTIFICATION } else { u64::MAX };
        let level = client[word::LEVEL].min(most);
        self.tokens[own][word::USED] |= u64::from(differs && held) << IMPERSONATE;
        self.set_acting(station, handle.token, level);
        out.number(level);
        Ok(())
    }

    pub fn revert(&mut self, station: usize, reader: &mut Reader, out: &mut Body) -> Served {
        reader.end()?;
        let (token, level) = self.set_acting(station, 0, 0);
        out.number(token);
        out.number(level);
        Ok(())
    }

    /// Writes the token acted for and the level in force; gives those before, freeing that token
    /// with its last reference.
    fn set_acting(&mut self, station: usize, token: u64, level: u64) -> (u64, u64) {
        let words = &mut self.stations[station];
        let before = std::mem::replace(&mut words[station_word::ACTS_FOR], token);
        let in_force = std::mem::replace(&mut words[station_word::IN_FORCE], level);
        if before != 0 {
            self.free_if_last(before);
        }
        (before, in_force)
    }
}
