//! The vectors of the protocol through the static library and beside it the model: the answers, and
//! the whole memory after each line.

use compare::lists::Both;
use compare::Lent;
use gen::vectors;

#[test]
fn the_vectors_are_answered_as_they_say() {
    let mut both = Both::<Lent>::start();
    for vector in vectors() {
        assert_eq!(both.make(&vector.call), vector.fed(), "{}", vector.words);
    }
}
