//! What the broker's calls cost, beside a rival in plain Rust with the same duties.

mod condition_work;
pub mod rival;
mod sid_work;
pub mod work;

use gen::{Broker, Calls};
use model::{Bytes, Fed, HandleRecord, Memory};

/// The rival with its lent memory.
pub struct Rival(rival::Parts);

impl Rival {
    /// A feed as the broker's C interface has it.
    pub fn call_feed(&mut self, station: u32, chunk: &[u8], answer: &mut [u8]) -> rival::Fed {
        rival::feed(station, chunk, answer, &mut self.0)
    }

    /// One OR over the same bytes: the least that a test of them can cost.
    pub fn read_once(&self) -> u64 {
        let words = |words: &[u64]| words.iter().fold(0, |all, word| all | word);
        let bytes = |bytes: &[u8]| {
            let (chunks, rest) = bytes.as_chunks();
            let chunks = chunks.iter().fold(0, |all, chunk| all | u64::from_ne_bytes(*chunk));
            chunks | u64::from(rest.iter().fold(0, |all, byte| all | byte))
        };
        let handles = self.0.handles.iter().fold(0, |all, handle| {
            let small = u32::from(handle.station | handle.mask) | handle.number;
            all | u64::from(small) | handle.token
        });
        let (tokens, control) = (words(&self.0.tokens), words(&self.0.control));
        tokens | control | handles | bytes(&self.0.dacls) | bytes(&self.0.pending)
    }
}

impl Calls for Rival {
    fn feed(&mut self, station: u32, chunk: &[u8], buffer_len: usize) -> Fed {
        const FILLER: u8 = 0xA5;
        let mut buffer = vec![FILLER; buffer_len];
        let (refusal, used, answered) = self.call_feed(station, chunk, &mut buffer);
        assert!(buffer[answered..].iter().all(|&byte| byte == FILLER));
        Fed { refusal, used, answer: buffer[..answered].to_vec() }
    }

    fn reconnect(&mut self, station: u32) -> u32 {
        rival::reconnect(station, &mut self.0)
    }
}

impl Broker for Rival {
    fn lend(memory: &Memory) -> Self {
        let Memory { tokens, dacls, handles, control, pending } = memory.clone();
        let handle = |&HandleRecord { station, mask, number, token }: &HandleRecord| {
            rival::Handle { station, mask, number, token }
        };
        let handles = handles.iter().map(handle).collect();
        Rival(rival::Parts { tokens, dacls, handles, control, pending })
    }

    fn bytes(&self) -> Bytes {
        let rival::Parts { tokens, dacls, handles, control, pending } = self.0.clone();
        let record = |&rival::Handle { station, mask, number, token }: &rival::Handle| {
            HandleRecord { station, mask, number, token }
        };
        let handles = handles.iter().map(record).collect();
        Memory { tokens, dacls, handles, control, pending }.bytes()
    }

    fn start(&mut self) -> u32 {
        rival::start(&mut self.0)
    }
}
