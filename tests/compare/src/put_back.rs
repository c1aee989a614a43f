//! Putting back what was, on a broker and on the model.

use std::ops::Range;

use gen::{each_seed, put_back_list, put_back_state, Broker, PutBack, PutBackCounts};
use model::{Fed, Model};

use crate::lists::{both, Both};

/// A list of calls for each seed, every other one from the start. What may be put back is, now and then
/// and at the end, on a copy of the memory.
pub fn compare<B: Broker>(seeds: Range<u64>, counts: &mut PutBackCounts) {
    each_seed(seeds, |seed, rng| {
        let first = if seed % 2 == 0 { Model::start() } else { put_back_state(rng) };
        let mut broker = B::lend(&first.memory());
        put_back_list(seed, rng, first, |step, put_backs| {
            both(&mut broker, step);
            for put_back in put_backs {
                serve::<B>(step.after, put_back);
                counts.count(put_back);
            }
        });
    });
}

/// Serves it on a copy of the memory, which holds this state.
fn serve<B: Broker>(model: &Model, put_back: &PutBack) {
    let mut copy = Both::<B>::at(model.clone());
    let fed = put_back.calls.iter().fold(Fed::default(), |_, call| copy.make(call));
    put_back.check(&fed.answer, &copy.model);
}
