//! Requests of linked pairs: 16 and 17.

use crate::privileges::TCB;
use crate::refusal::Refusal;
use crate::rights::Mask;
use crate::state::{Model, Pair};
use crate::token::{Elevation, Level, Token, TokenType};
use crate::tokens::impersonation_copy;

impl Model {
    /// 16: the tokens become the session's pair, in the place of the pair that it had.
    pub(crate) fn link(
        &mut self,
        station: usize,
        elevated: u32,
        filtered: u32,
        session: u64,
    ) -> Result<(), Refusal> {
        let handles = [self.handle(station, elevated)?, self.handle(station, filtered)?];
        let granted = |mask| Mask::DUPLICATE.within(Mask(mask));
        Refusal::Right.unless(handles.iter().all(|handle| granted(handle.mask)))?;
        self.check_held(station, TCB)?;
        let [elevated, filtered] = handles.map(|handle| self.live(handle.token));
        Refusal::Field.unless(may_be_linked(elevated, filtered, session))?;
        let pair = Pair { session, elevated: elevated.number, filtered: filtered.number };
        let place = self.place_of_pair(session)?;
        self.live_mut(pair.elevated).elevation = Elevation::Full;
        self.live_mut(pair.filtered).elevation = Elevation::Limited;
        self.mark_used(station, TCB);
        let old = self.pairs[place].replace(pair);
        for token in old.into_iter().flat_map(Pair::tokens) {
            self.free_if_last(token);
        }
        Ok(())
    }

    /// 17: a handle on the other token of the pair; without Tcb, on a clone of it.
    pub(crate) fn get_linked(&mut self, station: usize, handle: u32) -> Result<u32, Refusal> {
        let handle = self.granted(station, handle, Mask::QUERY)?;
        let partner = self.partner(handle.token).ok_or(Refusal::Unlinked)?;
        if self.primary(station).privileges.holds(TCB) {
            let number = self.add_handle(station, partner, Mask::ALL.0)?;
            self.mark_used(station, TCB);
            return Ok(number);
        }
        self.add_token(station, clone_of(self.live(partner)), Mask::QUERY.0)
    }

    /// The number of the token that this one is linked to.
    pub fn partner(&self, token: u64) -> Option<u64> {
        self.pairs.iter().flatten().find_map(|pair| match pair.tokens() {
            [elevated, filtered] if elevated == token => Some(filtered),
            [elevated, filtered] if filtered == token => Some(elevated),
            _ => None,
        })
    }

    /// The place of the session's pair, or else the lowest free one; refusal 8.
    fn place_of_pair(&self, session: u64) -> Result<usize, Refusal> {
        let is_its = |pair: &Option<Pair>| pair.is_some_and(|pair| pair.session == session);
        let own = self.pairs.iter().position(is_its);
        own.or_else(|| self.pairs.iter().position(Option::is_none)).ok_or(Refusal::Full)
    }
}

/// Two primary tokens of the session and one user, neither of which had the other's part.
fn may_be_linked(elevated: &Token, filtered: &Token, session: u64) -> bool {
    let is_of_session =
        |token: &Token| token.kind == TokenType::Primary && token.session == session;
    is_of_session(elevated)
        && is_of_session(filtered)
        && elevated.user == filtered.user
        && elevated.number != filtered.number
        && elevated.elevation != Elevation::Limited
        && filtered.elevation != Elevation::Full
}

/// An impersonation copy that keeps its elevation; it is in no pair.
fn clone_of(source: &Token) -> Token {
    let elevation = source.elevation;
    Token { elevation, ..impersonation_copy(source, Level::Identification) }
}
