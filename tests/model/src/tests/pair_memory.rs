//! Pairs in the lent memory.

use super::{ask, create, handle, start};
use crate::layout::{control_word, pair_word, token_word, PAIR_ROW, TOKEN_ROW};
use crate::{Memory, Model, PAIRS};

/// Pairs of session 9 (tokens 2 and 3), 0 (4 and 5) and 7 (6 and 7), each with a handle on both, and two
/// tokens of session 7 outside.
fn paired() -> Model {
    let mut model = start();
    for session in [9, 0, 7, 7] {
        let mut numbers = create(&[]);
        numbers[2] = session;
        let [elevated, filtered] = [(); 2].map(|()| handle(&mut model, 0, &numbers));
        if elevated < 7 {
            assert_eq!(ask(&mut model, 0, &[16, elevated, filtered, session]), [0]);
        }
    }
    model
}

/// Where a word of a place for a pair stands.
fn place(at: usize, word: usize) -> usize {
    control_word::PAIRS + at * PAIR_ROW + word
}

/// Whether the memory stays valid after the change.
fn valid_after(change: impl FnOnce(&mut Memory)) -> bool {
    let mut memory = paired().memory();
    change(&mut memory);
    let model = memory.model();
    if let Some(model) = &model {
        assert_eq!(model.memory(), memory);
    }
    model.is_some()
}

/// Whether it stays valid with these words in a place.
fn valid_with(at: usize, row: [u64; PAIR_ROW]) -> bool {
    valid_after(|memory| memory.control[place(at, 0)..place(at + 1, 0)].copy_from_slice(&row))
}

/// Whether it stays valid with this value in a field of the token.
fn valid_with_token(number: usize, word: usize, value: u64) -> bool {
    valid_after(|memory| memory.tokens[(number - 1) * TOKEN_ROW + word] = value)
}

#[test]
fn every_pair_has_its_words() {
    let control = paired().memory().control;
    assert_eq!((control_word::PAIRS, control_word::SID_COUNT), (42, 54));
    assert_eq!(control[42..54], [9, 2, 3, 0, 4, 5, 7, 6, 7, 0, 0, 0]);
    assert_eq!(PAIRS * PAIR_ROW, 12);
}

#[test]
fn a_pair_fills_the_lowest_free_place() {
    let model = paired();
    assert_eq!(model.memory().broken_rules(), [""; 0]);
    assert_eq!(model.memory().model(), Some(model));
    assert!(valid_with(2, [0, 0, 0]), "one pair less");
    assert!(valid_with(1, [0, 0, 0]), "a pair behind a free place");
    assert!(valid_with(0, [0, 0, 0]), "two");
}

#[test]
fn a_free_place_is_zero() {
    for (at, word) in [(3, pair_word::SESSION), (3, pair_word::FILTERED)] {
        for value in [1, 8, 9, u64::MAX] {
            assert!(!valid_after(|memory| memory.control[place(at, word)] = value));
        }
    }
    assert!(!valid_with(2, [7, 0, 7]), "told by the elevated one");
}

#[test]
fn pairs_are_of_different_sessions() {
    assert!(!valid_with(3, [9, 2, 3]), "the same pair again");
    assert!(!valid_with(3, [7, 8, 9]), "as it is, the tokens are not Full and Limited");
    let elevate = |memory: &mut Memory| {
        for (number, elevation) in [(8, 2), (9, 3)] {
            memory.tokens[(number - 1) * TOKEN_ROW + token_word::ELEVATION] = elevation;
        }
    };
    assert!(valid_after(elevate), "Full and Limited outside of pairs");
    let other = |memory: &mut Memory, row: [u64; 3]| {
        elevate(memory);
        memory.control[place(2, 0)..place(3, 0)].copy_from_slice(&row);
    };
    assert!(valid_after(|memory| other(memory, [7, 8, 9])), "another pair of the session");
    assert!(valid_after(|memory| other(memory, [7, 6, 9])), "with one of the old");
    assert!(!valid_after(|memory| {
        elevate(memory);
        memory.control[place(3, 0)..place(4, 0)].copy_from_slice(&[7, 8, 9]);
    }));
}

#[test]
fn what_a_paired_token_is() {
    for row in [[7, 7, 6], [7, 6, 6], [7, 7, 7], [7, 6, 0], [7, 6, 10], [7, 10, 7], [8, 6, 7]] {
        assert!(!valid_with(2, row), "{row:?}");
    }
    for elevation in [1, 3] {
        assert!(!valid_with_token(6, token_word::ELEVATION, elevation));
    }
    assert!(!valid_with_token(7, token_word::ELEVATION, 2));
    assert!(!valid_with_token(6, token_word::TYPE, 2), "an impersonation token");
    assert!(valid_with_token(8, token_word::TYPE, 2), "outside of pairs");
    assert!(!valid_with_token(7, token_word::USER, 51), "of another user");
    assert!(!valid_with_token(7, token_word::SESSION, 8), "of another session");
    assert!(valid_with_token(7, token_word::INTEGRITY, 0), "all else may differ");
}

#[test]
fn a_pair_alone_keeps_a_token_referred_to() {
    let without_handles = |memory: &mut Memory| {
        memory.handles[4..6].fill_with(Default::default);
    };
    assert!(valid_after(without_handles));
    assert!(!valid_after(|memory| {
        without_handles(memory);
        memory.control[place(2, 0)..place(3, 0)].fill(0);
    }));
}
