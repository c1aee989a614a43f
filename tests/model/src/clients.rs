//! Requests that act for another: 12 and 13.

use crate::privileges::IMPERSONATE;
use crate::refusal::Refusal;
use crate::rights::Mask;
use crate::state::{Client, Model};
use crate::token::{Level, Token, TokenType};

impl Model {
    /// 12: the station acts for the handle's token; gives the level in force.
    pub(crate) fn impersonate(&mut self, station: usize, handle: u32) -> Result<Level, Refusal> {
        let handle = self.granted(station, handle, Mask::IMPERSONATE)?;
        let (server, client) = (self.primary(station), self.live(handle.token));
        Refusal::Field.unless(client.kind == TokenType::Impersonation)?;
        let needed = !are_alike(server, client);
        let held = server.privileges.holds(IMPERSONATE);
        let passes = !needed || held;
        Refusal::Mismatch.unless(passes || !server.is_restricted() || client.is_restricted())?;
        let level = level_in_force(server, client, passes);
        if needed && held {
            self.mark_used(station, IMPERSONATE);
        }
        self.act_for(station, Some(Client { token: handle.token, level }));
        Ok(level)
    }

    /// 13: the station acts for none; gives the client that it had.
    pub(crate) fn revert(&mut self, station: usize) -> Option<Client> {
        self.act_for(station, None)
    }

    /// Replaces the station's client, whose token goes with its last reference.
    fn act_for(&mut self, station: usize, client: Option<Client>) -> Option<Client> {
        let old = std::mem::replace(&mut self.stations[station].client, client);
        if let Some(old) = old {
            self.free_if_last(old.token);
        }
        old
    }
}

/// The half of gate one that needs no privilege.
fn are_alike(server: &Token, client: &Token) -> bool {
    server.user == client.user && server.is_restricted() == client.is_restricted()
}

/// The least of the token's own level and the caps.
fn level_in_force(server: &Token, client: &Token, passes: bool) -> Level {
    if passes && client.integrity <= server.integrity {
        client.level
    } else {
        client.level.min(Level::Identification)
    }
}
