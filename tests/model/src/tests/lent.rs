//! The three calls over lent memory.

use crate::{control_word, Fed, Memory, Model, MIN_BUFFER};

fn damaged() -> Memory {
    let mut memory = Model::start().memory();
    memory.control[control_word::NEXT_HANDLE] = 0;
    memory
}

#[test]
fn refusal_13_comes_last_and_changes_nothing() {
    let mut memory = damaged();
    let refused = |refusal| Fed { refusal, ..Fed::default() };
    assert_eq!(memory.feed(8, &[2, 1, 8], 0), refused(11));
    assert_eq!(memory.feed(0, &[2, 1, 8], MIN_BUFFER - 1), refused(12));
    assert_eq!(memory.feed(0, &[2, 1, 8], MIN_BUFFER), refused(13));
    assert_eq!(memory.feed(0, &[], MIN_BUFFER), refused(13));
    assert_eq!((memory.reconnect(8), memory.reconnect(7)), (11, 13));
    assert_eq!(memory, damaged());
}

#[test]
fn valid_memory_is_served() {
    let (mut memory, mut model) = (Model::start().memory(), Model::start());
    for chunk in [&[2, 1][..], &[8, 2, 1, 8], &[0], &[1, 1]] {
        assert_eq!(memory.feed(3, chunk, MIN_BUFFER), model.feed(3, chunk, MIN_BUFFER));
        assert_eq!(memory, model.memory());
    }
    assert_eq!((memory.reconnect(3), model.reconnect(3)), (0, 0));
    assert_eq!(memory, model.memory());
}

#[test]
fn start_asks_for_the_sizes_alone() {
    let mut memory = damaged();
    memory.tokens.fill(7);
    assert_eq!(memory.start(), 0);
    assert_eq!(memory, Model::start().memory());
    memory.pending.pop();
    let before = memory.clone();
    assert_eq!(memory.start(), 13);
    assert_eq!(memory, before);
}
