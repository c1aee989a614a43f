//! The two calls on a stream: feed and reconnect.

use crate::frame::{framed, progress, Progress};
use crate::refusal::Refusal;
use crate::serve::refused;
use crate::state::{Model, Station, STATIONS};

/// The shortest answer buffer that a feed takes.
pub const MIN_BUFFER: usize = 1024;

/// What a feed gives back.
#[derive(Clone, Debug, Default, PartialEq, Eq)]
pub struct Fed {
    /// 0, or 11 to 13.
    pub refusal: u32,
    /// How many bytes of the chunk were used.
    pub used: usize,
    /// The whole answer, empty if none.
    pub answer: Vec<u8>,
}

impl Fed {
    pub(crate) fn refused(refusal: Refusal) -> Self {
        Fed { refusal: refusal.number(), ..Fed::default() }
    }

    fn answered(used: usize, body: &[u8]) -> Self {
        Fed { refusal: 0, used, answer: framed(body) }
    }

    fn unanswered(used: usize) -> Self {
        Fed { used, ..Fed::default() }
    }
}

impl Model {
    /// Feeds bytes up to the end of the first request or break, or of the chunk.
    pub fn feed(&mut self, station: u32, chunk: &[u8], buffer_len: usize) -> Fed {
        let station = match check_feed(station, buffer_len) {
            Ok(station) => station,
            Err(refusal) => return Fed::refused(refusal),
        };
        for (at, &byte) in chunk.iter().enumerate() {
            if let Some(answer) = self.feed_byte(station, byte) {
                return Fed::answered(at + 1, &answer);
            }
        }
        Fed::unanswered(chunk.len())
    }

    /// Takes one byte; gives the answer's body when it ends a request or breaks the stream.
    fn feed_byte(&mut self, station: usize, byte: u8) -> Option<Vec<u8>> {
        let stream = &mut self.stations[station];
        if stream.broken {
            return None;
        }
        stream.pending.push(byte);
        match progress(&stream.pending) {
            Progress::Partial => None,
            Progress::Broken => {
                stream.pending.clear();
                stream.broken = true;
                Some(refused(Refusal::Broken))
            }
            Progress::Whole(body) => {
                let body = body.to_vec();
                stream.pending.clear();
                Some(self.serve(station, &body))
            }
        }
    }

    /// Drops the station's part of a request and its break; gives 0 or the refusal.
    pub fn reconnect(&mut self, station: u32) -> u32 {
        let station = match check_station(station) {
            Ok(station) => station,
            Err(refusal) => return refusal.number(),
        };
        let Station { token, client, .. } = self.stations[station];
        self.stations[station] = Station { token, client, ..Station::default() };
        0
    }
}

/// The station's index, or refusal 11.
pub(crate) fn check_station(station: u32) -> Result<usize, Refusal> {
    let station = usize::try_from(station).ok().filter(|&station| station < STATIONS);
    station.ok_or(Refusal::Station)
}

/// The same for a feed with an answer buffer of this length; refusal 11, then 12.
pub(crate) fn check_feed(station: u32, buffer_len: usize) -> Result<usize, Refusal> {
    let station = check_station(station)?;
    Refusal::Buffer.unless(buffer_len >= MIN_BUFFER)?;
    Ok(station)
}
