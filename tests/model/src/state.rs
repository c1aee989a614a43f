//! What the model keeps: tokens, handles, stations, linked pairs, SIDs and the next numbers.

use crate::refusal::Refusal;
use crate::rights::Mask;
use crate::sid_table::SidTable;
use crate::token::{Level, Token};

/// How many stations there are.
pub const STATIONS: usize = 8;
/// How many slots for tokens.
pub const TOKENS: usize = 16;
/// How many slots for handles.
pub const HANDLES: usize = 32;
/// How many places for linked pairs.
pub const PAIRS: usize = 4;

/// A handle.
#[derive(Clone, Copy, Debug, PartialEq, Eq)]
pub struct Handle {
    /// Whose handle it is.
    pub station: u32,
    /// Its own number, never 0.
    pub number: u32,
    /// The number of its token.
    pub token: u64,
    /// What it grants.
    pub mask: u32,
}

/// The number that stands for no client.
pub const NO_CLIENT: u64 = 0;

/// A token that a station acts for.
#[derive(Clone, Copy, Debug, PartialEq, Eq)]
pub struct Client {
    /// The token's number, never [`NO_CLIENT`].
    pub token: u64,
    /// The level in force, as request 12 answered it.
    pub level: Level,
}

/// Two linked tokens of a session.
#[derive(Clone, Copy, Debug, PartialEq, Eq)]
pub struct Pair {
    /// The session, which has this pair alone.
    pub session: u64,
    /// The number of the elevated token.
    pub elevated: u64,
    /// The number of the filtered one.
    pub filtered: u64,
}

impl Pair {
    /// Both tokens' numbers.
    pub fn tokens(self) -> [u64; 2] {
        [self.elevated, self.filtered]
    }
}

/// A station and its stream.
#[derive(Clone, Debug, Default, PartialEq, Eq)]
pub struct Station {
    /// The number of its primary ("real") token.
    pub token: u64,
    /// The token that it acts for, if any.
    pub client: Option<Client>,
    /// The bytes of a frame not yet whole, its length bytes among them.
    pub pending: Vec<u8>,
    /// Whether its stream is broken.
    pub broken: bool,
}

/// The whole state: the papers' plain desk.
#[derive(Clone, Debug, PartialEq, Eq)]
pub struct Model {
    /// Token slots.
    pub tokens: [Option<Token>; TOKENS],
    /// Handle slots.
    pub handles: [Option<Handle>; HANDLES],
    /// The stations.
    pub stations: [Station; STATIONS],
    /// Places for pairs.
    pub pairs: [Option<Pair>; PAIRS],
    /// The SIDs that have numbers.
    pub sids: SidTable,
    /// The next token number.
    pub next_token: u64,
    /// The next handle number.
    pub next_handle: u32,
}

impl Model {
    /// The start: every station has token 1, there are no handles, and 7 and 18 are the only SIDs.
    pub fn start() -> Self {
        let mut tokens = [const { None }; TOKENS];
        tokens[0] = Some(Token::first());
        Model {
            tokens,
            handles: [None; HANDLES],
            stations: std::array::from_fn(|_| Station { token: 1, ..Station::default() }),
            pairs: [None; PAIRS],
            sids: SidTable::default(),
            next_token: 2,
            next_handle: 1,
        }
    }

    /// The live token of this number.
    pub fn token(&self, number: u64) -> Option<&Token> {
        self.tokens.iter().flatten().find(|token| token.number == number)
    }

    /// The token of this number, which something refers to.
    pub(crate) fn live(&self, number: u64) -> &Token {
        self.token(number).expect("references are live")
    }

    /// The same, to be changed.
    pub(crate) fn live_mut(&mut self, number: u64) -> &mut Token {
        let mut tokens = self.tokens.iter_mut().flatten();
        tokens.find(|token| token.number == number).expect("references are live")
    }

    /// The primary token of a station.
    pub fn primary(&self, station: usize) -> &Token {
        self.live(self.stations[station].token)
    }

    /// The station's live handle of this number, or refusal 2.
    pub(crate) fn handle(&self, station: usize, number: u32) -> Result<Handle, Refusal> {
        let mut handles = self.handles.iter().flatten().copied();
        handles
            .find(|handle| handle.number == number && handle.station as usize == station)
            .ok_or(Refusal::Handle)
    }

    /// The same handle when it grants the right; refusal 2, then 3.
    pub(crate) fn granted(
        &self,
        station: usize,
        number: u32,
        right: Mask,
    ) -> Result<Handle, Refusal> {
        let handle = self.handle(station, number)?;
        Refusal::Right.unless(right.within(Mask(handle.mask)))?;
        Ok(handle)
    }

    /// Refusal 4 unless the privilege is held.
    pub(crate) fn check_held(&self, station: usize, privilege: u32) -> Result<(), Refusal> {
        Refusal::Privilege.unless(self.primary(station).privileges.holds(privilege))
    }

    /// Sets a used bit on the station's primary token.
    pub(crate) fn mark_used(&mut self, station: usize, privilege: u32) {
        let number = self.stations[station].token;
        self.live_mut(number).privileges.used |= 1 << privilege;
    }

    /// The lowest free handle slot, when the next number is usable; else refusal 8.
    fn free_handle(&self) -> Result<usize, Refusal> {
        Refusal::Full.unless(self.next_handle < u32::MAX)?;
        self.handles.iter().position(Option::is_none).ok_or(Refusal::Full)
    }

    /// The lowest free token slot, when the next number is usable; else refusal 8.
    fn free_token(&self) -> Result<usize, Refusal> {
        Refusal::Full.unless(self.next_token < u64::MAX)?;
        self.tokens.iter().position(Option::is_none).ok_or(Refusal::Full)
    }

    /// A new handle of the station on a live token.
    pub(crate) fn add_handle(
        &mut self,
        station: usize,
        token: u64,
        mask: u32,
    ) -> Result<u32, Refusal> {
        let slot = self.free_handle()?;
        let number = self.next_handle;
        self.handles[slot] = Some(Handle { station: station as u32, number, token, mask });
        self.next_handle += 1;
        Ok(number)
    }

    /// A new token, given the next number, and a handle on it.
    pub(crate) fn add_token(
        &mut self,
        station: usize,
        token: Token,
        mask: u32,
    ) -> Result<u32, Refusal> {
        let slot = self.free_token()?;
        let number = self.next_token;
        let handle = self.add_handle(station, number, mask)?;
        self.tokens[slot] = Some(Token { number, modified: number, ..token });
        self.next_token += 1;
        Ok(handle)
    }

    /// Every reference to a token: of handles, of stations to their primary tokens, of stations to
    /// the tokens that they act for, and of pairs.
    pub fn references(&self) -> impl Iterator<Item = u64> + '_ {
        let handles = self.handles.iter().flatten().map(|handle| handle.token);
        let primaries = self.stations.iter().map(|station| station.token);
        let clients = self.stations.iter().filter_map(|station| station.client);
        let paired = self.pairs.iter().flatten().flat_map(|pair| pair.tokens());
        handles.chain(primaries).chain(clients.map(|client| client.token)).chain(paired)
    }

    /// Whether anything refers to the token.
    pub fn is_referred_to(&self, number: u64) -> bool {
        self.references().any(|token| token == number)
    }

    /// Frees the token that just lost a reference, if that was its last one.
    pub(crate) fn free_if_last(&mut self, number: u64) {
        if self.is_referred_to(number) {
            return;
        }
        for slot in &mut self.tokens {
            if slot.as_ref().is_some_and(|token| token.number == number) {
                *slot = None;
            }
        }
    }
}
