//! What takes the calls, and scripts that make them.

use model::{Bytes, Fed, Memory, Model, Refusal, MAX_LENGTH_BYTES, MORE};

use crate::body::{body, sid_body};
use crate::call::{Call, DrawBody, Script};

/// What takes feeds and reconnects.
pub trait Calls {
    /// Feeds a chunk with an answer buffer of this length.
    fn feed(&mut self, station: u32, chunk: &[u8], buffer_len: usize) -> Fed;
    /// Reconnects a station; gives 0 or the refusal.
    fn reconnect(&mut self, station: u32) -> u32;

    /// Makes a call; of a reconnect's result only the refusal tells something.
    fn make(&mut self, call: &Call) -> Fed {
        match call {
            Call::Feed { station, chunk, buffer_len } => self.feed(*station, chunk, *buffer_len),
            Call::Reconnect { station } => {
                Fed { refusal: self.reconnect(*station), ..Fed::default() }
            }
        }
    }
}

/// A broker with the memory that it was lent.
pub trait Broker: Calls {
    /// Lends a copy of the memory, whatever is in it.
    fn lend(memory: &Memory) -> Self;
    /// Every byte of the memory as it is now.
    fn bytes(&self) -> Bytes;
    /// Starts; gives 0 or the refusal.
    fn start(&mut self) -> u32;
}

impl Calls for Model {
    fn feed(&mut self, station: u32, chunk: &[u8], buffer_len: usize) -> Fed {
        self.feed(station, chunk, buffer_len)
    }
    fn reconnect(&mut self, station: u32) -> u32 {
        self.reconnect(station)
    }
}

impl Calls for Memory {
    fn feed(&mut self, station: u32, chunk: &[u8], buffer_len: usize) -> Fed {
        self.feed(station, chunk, buffer_len)
    }
    fn reconnect(&mut self, station: u32) -> u32 {
        self.reconnect(station)
    }
}

/// The model's own calls on lent memory.
impl Broker for Memory {
    fn lend(memory: &Memory) -> Self {
        memory.clone()
    }
    fn bytes(&self) -> Bytes {
        self.bytes()
    }
    fn start(&mut self) -> u32 {
        self.start()
    }
}

/// One call of a script on the model.
pub struct Step<'a> {
    /// The call.
    pub call: &'a Call,
    /// The state before it.
    pub before: &'a Model,
    /// The state after it.
    pub after: &'a Model,
    /// What it returned.
    pub fed: &'a Fed,
}

impl Step<'_> {
    /// The status of the answer, if there is one.
    pub fn status(&self) -> Option<u8> {
        status(&self.fed.answer)
    }

    /// The station and the body of the request that the call ended.
    pub fn ended(&self) -> Option<(usize, Vec<u8>)> {
        let Call::Feed { station, chunk, .. } = self.call else { return None };
        let station = *station as usize;
        self.status().filter(|&status| u32::from(status) != Refusal::Broken.number())?;
        let frame = [&self.before.stations[station].pending, &chunk[..self.fed.used]].concat();
        Some((station, body_of(&frame)?.to_vec()))
    }
}

/// The body of a whole frame.
fn body_of(frame: &[u8]) -> Option<&[u8]> {
    let length_bytes = if *frame.first()? < MORE { 1 } else { MAX_LENGTH_BYTES };
    frame.get(length_bytes..)
}

/// The status of an answer; `None` when there is no answer.
pub fn status(answer: &[u8]) -> Option<u8> {
    body_of(answer)?.first().copied()
}

/// Makes so many calls of the seed's script on the model and shows each to `check`.
pub fn run(seed: u64, model: Model, calls: usize, check: impl FnMut(&Step)) {
    run_of(body, seed, model, calls, check);
}

/// The same, with requests that mostly have SIDs.
pub fn run_with_sids(seed: u64, model: Model, calls: usize, check: impl FnMut(&Step)) {
    run_of(sid_body, seed, model, calls, check);
}

/// The same, with bodies drawn so.
pub(crate) fn run_of(
    draw: DrawBody,
    seed: u64,
    mut model: Model,
    calls: usize,
    mut check: impl FnMut(&Step),
) {
    let mut script = Script::of(draw, seed);
    for _ in 0..calls {
        let call = script.next(&model);
        let before = model.clone();
        let fed = model.make(&call);
        if let (Call::Feed { station, .. }, 0) = (&call, fed.refusal) {
            script.sent(*station, fed.used);
        }
        check(&Step { call: &call, before: &before, after: &model, fed: &fed });
    }
}
