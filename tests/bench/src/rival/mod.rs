//! A rival of the broker with the same duties, written in plain Rust to be quick: on every call it
//! tests all lent memory, then serves in place. It copies no more than it must and allocates nothing.

mod acting;
mod conditions;
mod copies;
mod groups;
mod layout;
mod linking;
mod memory;
mod reader;
mod records;
mod reports;
mod requests;
mod sids;
mod stream;
mod table;
mod valid;

use layout::{MIN_BUFFER, STATIONS};

pub use memory::{Handle, Parts};

/// What a feed returns: refusal, bytes used, length of the answer.
pub type Fed = (u32, usize, usize);

/// Overwrites memory of the right sizes with the start; gives 0 or the refusal.
pub fn start(parts: &mut Parts) -> u32 {
    match parts.view() {
        None => 13,
        Some(mut memory) => {
            memory.start();
            0
        }
    }
}

/// Feeds bytes up to the end of the first request or break, or of the chunk.
pub fn feed(station: u32, chunk: &[u8], answer: &mut [u8], parts: &mut Parts) -> Fed {
    if station as usize >= STATIONS {
        return (11, 0, 0);
    }
    if answer.len() < MIN_BUFFER {
        return (12, 0, 0);
    }
    match parts.view() {
        Some(mut memory) if memory.is_valid() => {
            let (used, answered) = memory.take(station as usize, chunk, answer);
            (0, used, answered)
        }
        _ => (13, 0, 0),
    }
}

/// Drops the station's pending bytes and its break; gives 0 or the refusal.
pub fn reconnect(station: u32, parts: &mut Parts) -> u32 {
    if station as usize >= STATIONS {
        return 11;
    }
    match parts.view() {
        Some(mut memory) if memory.is_valid() => {
            memory.reconnect(station as usize);
            0
        }
        _ => 13,
    }
}
