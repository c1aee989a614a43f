//! Serving one whole request.

use crate::number::write_number;
use crate::refusal::Refusal;
use crate::request::Request;
use crate::state::{Client, Model};
use crate::token::Level;

impl Model {
    /// Serves the body of one frame and gives the answer's body.
    pub fn serve(&mut self, station: usize, body: &[u8]) -> Vec<u8> {
        match self.reply(station, body) {
            Ok(fields) => [vec![0], fields].concat(),
            Err(refusal) => refused(refusal),
        }
    }

    /// The fields after status 0, or the first refusal that applies; a refusal changes nothing.
    fn reply(&mut self, station: usize, body: &[u8]) -> Result<Vec<u8>, Refusal> {
        match Request::read(body).ok_or(Refusal::Layout)? {
            Request::Open { mask } => self.open(station, mask).map(number),
            Request::Close { handle } => self.close(station, handle).map(nothing),
            Request::Create { user, session, integrity, present, default, groups } => self
                .create(
                    station,
                    self.sids.clone(),
                    (user, session, integrity),
                    (present, default),
                    &groups,
                )
                .map(number),
            Request::Query { handle, class, capacity } => {
                self.query(station, handle, class, capacity)
            }
            Request::Privileges { handle, entries } => {
                self.adjust_privileges(station, handle, &entries)
            }
            Request::Groups { handle, entries } => self.adjust_groups(station, handle, &entries),
            Request::Scope { handle, value } => {
                self.adjust_scope(station, handle, value).map(nothing)
            }
            Request::Default { handle, owner, group, flag, dacl } => {
                self.adjust_default(station, handle, (owner, group), flag, &dacl).map(nothing)
            }
            Request::Duplicate { handle, kind, level, mask } => {
                self.duplicate(station, handle, kind, level, mask).map(number)
            }
            Request::Restrict { handle, write_restricted, remove, deny, sids } => {
                let (table, less) = (self.sids.clone(), (write_restricted, remove));
                self.restrict(station, table, handle, less, &deny, &sids).map(number)
            }
            Request::Install { handle } => self.install(station, handle).map(nothing),
            Request::Impersonate { handle } => self.impersonate(station, handle).map(level),
            Request::Revert => Ok(given_up(self.revert(station))),
            Request::CreatePacked { user, session, integrity, present, default, groups } => self
                .create_packed(station, (user, session, integrity), (present, default), &groups)
                .map(number),
            Request::RestrictPacked { handle, write_restricted, remove, deny, sids } => {
                let less = (write_restricted, remove);
                self.restrict_packed(station, handle, less, &deny, &sids).map(number)
            }
            Request::Link { elevated, filtered, session } => {
                self.link(station, elevated, filtered, session).map(nothing)
            }
            Request::GetLinked { handle } => self.get_linked(station, handle).map(number),
            Request::Evaluate { handle, condition } => {
                self.evaluate(station, handle, &condition).map(truth)
            }
        }
    }
}

/// The answer's body for a refusal.
pub(crate) fn refused(refusal: Refusal) -> Vec<u8> {
    let mut body = number(refusal.number());
    if let Refusal::Capacity(size) = refusal {
        write_number(size.into(), &mut body);
    }
    body
}

fn number(number: u32) -> Vec<u8> {
    let mut fields = Vec::new();
    write_number(number.into(), &mut fields);
    fields
}

fn level(level: Level) -> Vec<u8> {
    number(level as u32)
}

fn truth(is_met: bool) -> Vec<u8> {
    number(is_met.into())
}

/// The token's number and the level in force, 0 and 0 if there was no client.
fn given_up(client: Option<Client>) -> Vec<u8> {
    let (token, level) = client.map_or((0, 0), |client| (client.token, client.level as u64));
    let mut fields = Vec::new();
    write_number(token, &mut fields);
    write_number(level, &mut fields);
    fields
}

fn nothing(_: ()) -> Vec<u8> {
    Vec::new()
}
