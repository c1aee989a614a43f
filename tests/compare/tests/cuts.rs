//! Demand 3: the same bytes cut differently give the same answers and the same memory.

use compare::Lent;
use gen::{check_cuts, each_seed, state};
use model::Model;

#[test]
fn cutting_changes_nothing() {
    each_seed(0..60, |seed, rng| {
        let start = if seed % 2 == 0 { Model::start() } else { state(rng) };
        check_cuts::<Lent>(seed, &start, 300);
    });
}
