//! Lists of calls on a broker and on the model: results, answers and memory are equal at each.

use std::fmt::Debug;
use std::ops::Range;

use gen::{
    each_seed, garbage, near_the_last_numbers, run, state, with_clients, with_conditions,
    with_copies, with_groups, with_pairs, with_restrictions, with_sids, Broker, Call, Calls,
    Counts, Rng, Step, DAMAGES,
};
use model::{Bytes, Fed, Memory, Model, MIN_BUFFER, PARTS};

/// How many calls each seed makes.
pub const CALLS: usize = 300;
/// How many each makes of the short lists, before the tokens are too much alike.
pub const FEW_CALLS: usize = 60;
/// How many starts there are to go on from, the broker's own twice.
const STARTS: u64 = 11;

/// A list of calls for each seed: from the start, from a random state, near the last numbers, with
/// groups of all kinds, with restricted tokens, with copies of copies, with others to act for, with
/// linked pairs, with tokens to ask conditions of, or with SID tables that are nearly full.
pub fn compare<B: Broker>(seeds: Range<u64>, counts: &mut Counts) {
    each_seed(seeds, |seed, rng| {
        let first = match seed % STARTS {
            0 | 1 => Model::start(),
            2 => state(rng),
            3 => near_the_last_numbers(rng),
            4 => with_groups(),
            5 => with_restrictions(),
            6 => with_copies(),
            7 => with_clients(rng),
            8 => with_pairs(rng),
            9 => with_conditions(rng),
            _ => with_sids(rng),
        };
        let mut broker = B::lend(&first.memory());
        if seed % STARTS < 2 {
            broker = B::lend(&garbage(rng));
            assert_eq!(broker.start(), 0);
        }
        run(seed, first, CALLS, |step| {
            both(&mut broker, step);
            counts.step(step);
            if rng.percent(10) {
                damaged::<B>(rng, step, counts);
            }
        });
    });
}

/// A short list for each seed, with others to act for.
pub fn compare_clients<B: Broker>(seeds: Range<u64>, counts: &mut Counts) {
    compare_short::<B>(seeds, with_clients, counts);
}

/// A short list for each seed, with linked pairs.
pub fn compare_pairs<B: Broker>(seeds: Range<u64>, counts: &mut Counts) {
    compare_short::<B>(seeds, with_pairs, counts);
}

fn compare_short<B: Broker>(seeds: Range<u64>, start: fn(&mut Rng) -> Model, counts: &mut Counts) {
    each_seed(seeds, |seed, rng| {
        let first = start(rng);
        let mut broker = B::lend(&first.memory());
        run(seed, first, FEW_CALLS, |step| {
            both(&mut broker, step);
            counts.step(step);
        });
    });
}

/// Makes the step's call on the broker and compares all that can be seen.
pub fn both<B: Broker>(broker: &mut B, step: &Step) {
    let fed = broker.make(step.call);
    assert_eq!(fed, *step.fed, "{:02X?}", step.call);
    same_bytes(&broker.bytes(), &step.after.memory().bytes(), step.call);
}

/// Compares every byte of every part; says where a part first differs.
pub fn same_bytes(bytes: &Bytes, expected: &Bytes, after: impl Debug) {
    for ((part, bytes), expected) in PARTS.into_iter().zip(bytes).zip(expected) {
        if bytes != expected {
            let mut pairs = bytes.iter().zip(expected).enumerate();
            let difference = pairs.find(|(_, (byte, expected))| byte != expected);
            panic!("{part}: (at, (byte, expected)) {difference:02X?}, after {after:02X?}");
        }
    }
}

/// The step's call again, on a damaged copy of the memory that it left.
fn damaged<B: Broker>(rng: &mut Rng, step: &Step, counts: &mut Counts) {
    let damage = &DAMAGES[rng.below(DAMAGES.len())];
    if let Some(memory) = damage.apply(rng, step.after) {
        counts.call(&on_memory::<B>(&memory, step.call));
    }
}

/// The call on any memory, by the broker and by the model: the same result and the same memory.
pub fn on_memory<B: Broker>(memory: &Memory, call: &Call) -> Fed {
    let (mut broker, mut model) = (B::lend(memory), memory.clone());
    let fed = broker.make(call);
    assert_eq!(fed, model.make(call), "{call:02X?}");
    same_bytes(&broker.bytes(), &model.bytes(), call);
    fed
}

/// The broker and the model, fed the same.
pub struct Both<B> {
    /// The broker.
    pub broker: B,
    /// The model.
    pub model: Model,
}

impl<B: Broker> Both<B> {
    /// Both at the start, the broker by its own call.
    pub fn start() -> Self {
        let model = Model::start();
        let mut broker = B::lend(&garbage(&mut Rng::new(0)));
        assert_eq!(broker.start(), 0);
        same_bytes(&broker.bytes(), &model.memory().bytes(), "the start");
        Both { broker, model }
    }

    /// Both in this state.
    pub fn at(model: Model) -> Self {
        Both { broker: B::lend(&model.memory()), model }
    }

    /// Makes the call on both and compares.
    pub fn make(&mut self, call: &Call) -> Fed {
        self.shown(call, |_| {})
    }

    /// The same, counted.
    pub fn counted(&mut self, call: &Call, counts: &mut Counts) -> Fed {
        self.shown(call, |step| counts.step(step))
    }

    fn shown(&mut self, call: &Call, show: impl FnOnce(&Step)) -> Fed {
        let before = self.model.clone();
        let fed = self.model.make(call);
        let step = Step { call, before: &before, after: &self.model, fed: &fed };
        both(&mut self.broker, &step);
        show(&step);
        fed
    }

    /// Feeds a chunk.
    pub fn feed(&mut self, station: u32, chunk: &[u8]) -> Fed {
        self.make(&Call::Feed { station, chunk: chunk.to_vec(), buffer_len: MIN_BUFFER })
    }

    /// Reconnects a station.
    pub fn reconnect(&mut self, station: u32) -> u32 {
        self.make(&Call::Reconnect { station }).refusal
    }
}
