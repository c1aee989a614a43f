//! Damaging a memory at one place, chosen with a view to the state that it holds.

use model::{
    control_word, station_word, token_word, Handle, Memory, Model, Pair, Token, DACL_ROW, PAIR_ROW,
    PENDING_ROW, STATION_ROW, TOKEN_ROW,
};

use crate::rng::Rng;

/// A memory with the state that it held before any damage.
pub(crate) struct Target<'a> {
    pub rng: &'a mut Rng,
    pub model: &'a Model,
    pub memory: Memory,
}

impl Target<'_> {
    /// A slot with such a token.
    pub fn slot(&mut self, fits: impl Fn(&Token) -> bool) -> Option<usize> {
        let tokens = self.model.tokens.iter().enumerate();
        let slots: Vec<usize> = tokens
            .filter(|(_, token)| token.as_ref().is_some_and(&fits))
            .map(|(slot, _)| slot)
            .collect();
        self.rng.pick_any(&slots)
    }

    /// A slot without a token.
    pub fn free_slot(&mut self) -> Option<usize> {
        let tokens = self.model.tokens.iter().enumerate();
        let slots: Vec<usize> =
            tokens.filter(|(_, token)| token.is_none()).map(|(slot, _)| slot).collect();
        self.rng.pick_any(&slots)
    }

    /// The token in a slot that has one.
    pub fn token(&self, slot: usize) -> Option<&Token> {
        self.model.tokens.get(slot)?.as_ref()
    }

    /// A word of a token slot.
    pub fn word(&mut self, slot: usize, word: usize) -> &mut u64 {
        &mut self.memory.tokens[slot * TOKEN_ROW + word]
    }

    /// The word of a group.
    pub fn group(&mut self, slot: usize, index: usize) -> &mut u64 {
        self.word(slot, token_word::GROUPS + index)
    }

    /// The word of a restricting SID.
    pub fn restricting(&mut self, slot: usize, index: usize) -> &mut u64 {
        self.word(slot, token_word::RESTRICTING + index)
    }

    /// A byte of a DACL's row.
    pub fn dacl(&mut self, slot: usize, at: usize) -> &mut u8 {
        &mut self.memory.dacls[slot * DACL_ROW + at]
    }

    /// A word of a station.
    pub fn station(&mut self, station: usize, word: usize) -> &mut u64 {
        &mut self.memory.control[control_word::STATIONS + station * STATION_ROW + word]
    }

    /// A byte of a station's pending row.
    pub fn pending(&mut self, station: usize, at: usize) -> &mut u8 {
        &mut self.memory.pending[station * PENDING_ROW + at]
    }

    /// Writes the station's pending bytes anew.
    pub fn set_pending(&mut self, bytes: &[u8]) -> Option<()> {
        let station = self.rng.below(self.model.stations.len());
        let row = &mut self.memory.pending[station * PENDING_ROW..][..PENDING_ROW];
        row.fill(0);
        row.get_mut(..bytes.len())?.copy_from_slice(bytes);
        *self.station(station, station_word::PENDING_COUNT) = bytes.len() as u64;
        *self.station(station, station_word::BROKEN) = 0;
        Some(())
    }

    /// A handle slot with such a handle in it, or free if `None` fits.
    pub fn handle_slot(&mut self, fits: impl Fn(Option<&Handle>) -> bool) -> Option<usize> {
        let handles = self.model.handles.iter().enumerate();
        let slots: Vec<usize> =
            handles.filter(|(_, handle)| fits(handle.as_ref())).map(|(slot, _)| slot).collect();
        self.rng.pick_any(&slots)
    }

    /// A station for which this holds.
    pub fn some_station(&mut self, fits: impl Fn(usize) -> bool) -> Option<usize> {
        let stations: Vec<usize> =
            (0..self.model.stations.len()).filter(|&station| fits(station)).collect();
        self.rng.pick_any(&stations)
    }

    /// Writes what a station acts for.
    pub fn set_client(&mut self, station: usize, token: u64, level: u64) {
        *self.station(station, station_word::CLIENT) = token;
        *self.station(station, station_word::CLIENT_LEVEL) = level;
    }

    /// The place of such a pair.
    pub fn pair_place(&mut self, fits: impl Fn(Pair) -> bool) -> Option<usize> {
        let pairs = self.model.pairs.iter().enumerate();
        let places: Vec<usize> =
            pairs.filter(|(_, pair)| pair.is_some_and(&fits)).map(|(place, _)| place).collect();
        self.rng.pick_any(&places)
    }

    /// A word of a place for a pair.
    pub fn pair(&mut self, place: usize, word: usize) -> &mut u64 {
        &mut self.memory.control[control_word::PAIRS + place * PAIR_ROW + word]
    }

    /// A number that no live token has.
    pub fn dead_number(&mut self) -> u64 {
        let numbers = [0, self.model.next_token, u64::MAX, self.model.next_token - 1, 1];
        let dead: Vec<u64> =
            numbers.into_iter().filter(|&number| self.model.token(number).is_none()).collect();
        self.rng.pick(&dead)
    }
}

/// How many handles, stations and pairs refer to the token; a station may twice.
pub(crate) fn references(model: &Model, token: u64) -> usize {
    model.references().filter(|&other| other == token).count()
}

/// Whether a station acts for the token.
pub(crate) fn is_client(model: &Model, token: u64) -> bool {
    model.stations.iter().filter_map(|station| station.client).any(|client| client.token == token)
}

/// Whether the token is in a pair.
pub(crate) fn is_paired(model: &Model, token: u64) -> bool {
    model.pairs.iter().flatten().any(|pair| pair.tokens().contains(&token))
}
