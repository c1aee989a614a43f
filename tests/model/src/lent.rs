//! The three calls over lent memory, of which 13 refuses any that is not valid.

use crate::feed::{check_feed, check_station};
use crate::memory::Memory;
use crate::refusal::Refusal;
use crate::state::Model;
use crate::Fed;

impl Memory {
    /// Overwrites any memory of the right sizes with the start; gives 0 or the refusal.
    pub fn start(&mut self) -> u32 {
        if !self.has_right_sizes() {
            return Refusal::Memory.number();
        }
        *self = Model::start().memory();
        0
    }

    /// A feed; refusal 11, 12, 13, each of which leaves the memory as it was.
    pub fn feed(&mut self, station: u32, chunk: &[u8], buffer_len: usize) -> Fed {
        if let Err(refusal) = check_feed(station, buffer_len) {
            return Fed::refused(refusal);
        }
        let Some(mut model) = self.model() else {
            return Fed::refused(Refusal::Memory);
        };
        let fed = model.feed(station, chunk, buffer_len);
        *self = model.memory();
        fed
    }

    /// A reconnect; refusal 11, then 13.
    pub fn reconnect(&mut self, station: u32) -> u32 {
        if let Err(refusal) = check_station(station) {
            return refusal.number();
        }
        let Some(mut model) = self.model() else {
            return Refusal::Memory.number();
        };
        let refusal = model.reconnect(station);
        *self = model.memory();
        refusal
    }
}
