//! Document 02, W13, on the model: what request 5 enabled and disabled can be put back from its report, as
//! long as no other success of it touched the token.

use std::ops::Range;

use gen::{each_seed, one_seed, put_back_list, put_back_state, Calls, PutBack, PutBackCounts, Rng};
use model::{Fed, Model};

/// Serves it on a copy of the state.
fn serve(model: &Model, put_back: &PutBack) {
    let mut copy = model.clone();
    let fed = put_back.calls.iter().fold(Fed::default(), |_, call| copy.make(call));
    put_back.check(&fed.answer, &copy);
}

/// Puts back in a list for each seed; each case comes so often at least.
fn put_back(seeds: Range<u64>, start: fn(&mut Rng) -> Model, least: usize) {
    let mut counts = PutBackCounts::default();
    each_seed(seeds, |seed, rng| {
        let first = start(rng);
        put_back_list(seed, rng, first, |step, put_backs| {
            for put_back in put_backs {
                serve(step.after, put_back);
                counts.count(put_back);
            }
        });
    });
    println!("{counts}");
    if one_seed().is_none() {
        counts.check(least);
    }
}

#[test]
fn in_lists_from_the_start() {
    put_back(0..1000, |_| Model::start(), 100);
}

#[test]
fn in_lists_from_other_states() {
    put_back(1000..1500, put_back_state, 100);
}
