//! Lists of calls: streams cut anywhere, stations in turns, breaks, reconnects, refused calls.

use model::{framed, Model, MIN_BUFFER, STATIONS};

use crate::body::body;
use crate::rng::Rng;

/// Draws the body of a request for a station.
pub(crate) type DrawBody = fn(&mut Rng, &Model, usize) -> Vec<u8>;

/// One call on the broker.
#[derive(Clone, Debug, PartialEq, Eq)]
#[allow(missing_docs)] // named as the arguments of the calls
pub enum Call {
    /// Feeds a chunk.
    Feed { station: u32, chunk: Vec<u8>, buffer_len: usize },
    /// Reconnects a station.
    Reconnect { station: u32 },
}

/// Draws calls one after the other; each station has bytes still to be sent.
#[derive(Clone, Debug)]
pub struct Script {
    rng: Rng,
    draw: DrawBody,
    unsent: [Vec<u8>; STATIONS],
}

/// Stations that there are not.
const NO_STATIONS: [u32; 4] = [STATIONS as u32, STATIONS as u32 + 1, 256, u32::MAX];

const BREAKS: [&[u8]; 6] =
    [&[0x00], &[0x80, 0x00], &[0xFF, 0x00], &[0x80, 0x80], &[0x81, 0x10], &[0xFF, 0x7F]];

impl Script {
    /// A script from a seed.
    pub fn new(seed: u64) -> Self {
        Script::of(body, seed)
    }

    /// The same, with bodies drawn so.
    pub(crate) fn of(draw: DrawBody, seed: u64) -> Self {
        Script { rng: Rng::new(seed), draw, unsent: Default::default() }
    }

    /// The next call, drawn with a view to the state.
    pub fn next(&mut self, model: &Model) -> Call {
        let station = self.rng.below(STATIONS);
        let is_broken = model.stations[station].broken;
        if self.rng.percent(if is_broken { 60 } else { 2 }) {
            return self.reconnect(station);
        }
        if self.unsent[station].is_empty() {
            self.fill(model, station);
        }
        let size = self.size(self.unsent[station].len());
        let chunk = self.unsent[station][..size].to_vec();
        let (station, buffer_len) = match self.rng.below(60) {
            0 => (self.rng.pick(&NO_STATIONS), self.rng.pick(&[MIN_BUFFER, 0])),
            1 => (station as u32, self.rng.pick(&[0, 1, MIN_BUFFER - 1])),
            _ => (station as u32, self.rng.pick(&[MIN_BUFFER, MIN_BUFFER, 4 * MIN_BUFFER])),
        };
        Call::Feed { station, chunk, buffer_len }
    }

    /// Takes note that the station's feed used so many bytes.
    pub fn sent(&mut self, station: u32, used: usize) {
        let unsent = usize::try_from(station).ok().and_then(|station| self.unsent.get_mut(station));
        if let Some(unsent) = unsent {
            unsent.drain(..used.min(unsent.len()));
        }
    }

    /// What was left to be sent may come later, as noise.
    fn reconnect(&mut self, station: usize) -> Call {
        if self.rng.percent(80) {
            self.unsent[station].clear();
        }
        if self.rng.percent(3) {
            return Call::Reconnect { station: self.rng.pick(&NO_STATIONS) };
        }
        Call::Reconnect { station: station as u32 }
    }

    /// One or two frames, or bytes that break the stream.
    fn fill(&mut self, model: &Model, station: usize) {
        for _ in 0..1 + self.rng.below(2) {
            let next = match self.rng.below(100) {
                0..=2 => self.rng.pick(&BREAKS).to_vec(),
                3 => (0..1 + self.rng.below(9)).map(|_| self.rng.word() as u8).collect(),
                _ => framed(&(self.draw)(&mut self.rng, model, station)),
            };
            self.unsent[station].extend(next);
        }
    }

    fn size(&mut self, unsent: usize) -> usize {
        match self.rng.below(10) {
            0 => 0,
            1 | 2 => 1,
            3 | 4 => self.rng.below(unsent + 1),
            _ => unsent,
        }
        .min(unsent)
    }
}
