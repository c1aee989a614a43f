//! Pending bytes: a frame that lies whole in the chunk is served from there.

use super::layout::{station_word, MAX_BODY, MAX_LENGTH_BYTES, PENDING_ROW};
use super::memory::Memory;
use super::reader::{BITS, MORE};

/// The answer to the byte that breaks a stream: refusal 10.
const BROKEN: [u8; 2] = [1, 10];

/// What the first bytes say of a frame.
enum Head {
    /// Its length is not known yet.
    Partial,
    /// The stream breaks at this many bytes.
    Broken(usize),
    /// So many length bytes, so many bytes of body.
    Known(usize, usize),
}

fn head(first: Option<u8>, second: Option<u8>) -> Head {
    match (first, second) {
        (None, _) => Head::Partial,
        (Some(0), _) => Head::Broken(1),
        (Some(first @ 1..MORE), _) => Head::Known(1, first.into()),
        (Some(_), None) => Head::Partial,
        (Some(_), Some(0 | MORE..)) => Head::Broken(MAX_LENGTH_BYTES),
        (Some(first), Some(second)) => match length(first, second) {
            length @ ..=MAX_BODY => Head::Known(MAX_LENGTH_BYTES, length),
            _ => Head::Broken(MAX_LENGTH_BYTES),
        },
    }
}

/// The length that two bytes say.
pub fn length(first: u8, second: u8) -> usize {
    usize::from(first & !MORE) | usize::from(second) << BITS
}

impl Memory<'_> {
    /// Feeds a chunk; gives bytes used and the answer's length.
    pub fn take(&mut self, station: usize, chunk: &[u8], answer: &mut [u8]) -> (usize, usize) {
        let known = self.station(station);
        if known.broken == 1 || chunk.is_empty() {
            return (chunk.len(), 0);
        }
        let count = known.count as usize;
        let row = &self.pending[station];
        let byte = |at: usize| {
            if at < count {
                Some(row[at])
            } else {
                chunk.get(at - count).copied()
            }
        };
        match head(byte(0), byte(1)) {
            Head::Partial => self.keep(station, count, chunk),
            Head::Broken(at) => {
                self.drop_pending(station, count);
                self.stations[station][station_word::BROKEN] = 1;
                answer[..BROKEN.len()].copy_from_slice(&BROKEN);
                (at - count, BROKEN.len())
            }
            Head::Known(head, length) if count + chunk.len() < head + length => {
                self.keep(station, count, chunk)
            }
            Head::Known(head, length) => {
                let used = head + length - count;
                let answered = self.end(station, count, head, &chunk[..used], answer);
                (used, answered)
            }
        }
    }

    fn keep(&mut self, station: usize, count: usize, chunk: &[u8]) -> (usize, usize) {
        self.pending[station][count..][..chunk.len()].copy_from_slice(chunk);
        self.stations[station][station_word::PENDING_COUNT] = (count + chunk.len()) as u64;
        (chunk.len(), 0)
    }

    /// Serves the frame that the chunk's bytes end.
    fn end(
        &mut self,
        station: usize,
        count: usize,
        head: usize,
        last: &[u8],
        answer: &mut [u8],
    ) -> usize {
        if count == 0 {
            return self.serve(station, &last[head..], answer);
        }
        let mut frame = [0; PENDING_ROW];
        let (frame, length) = (&mut frame[..], count + last.len());
        frame[..count].copy_from_slice(&self.pending[station][..count]);
        frame[count..length].copy_from_slice(last);
        self.drop_pending(station, count);
        self.serve(station, &frame[head..length], answer)
    }

    fn drop_pending(&mut self, station: usize, count: usize) {
        self.pending[station][..count].fill(0);
        self.stations[station][station_word::PENDING_COUNT] = 0;
    }

    pub fn reconnect(&mut self, station: usize) {
        self.drop_pending(station, self.station(station).count as usize);
        self.stations[station][station_word::BROKEN] = 0;
    }
}
