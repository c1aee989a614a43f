//! The SID table in the lent memory.

use super::{create, handle, start};
use crate::layout::{control_word, token_word, CONTROL_WORDS, SID_ROW, TOKEN_ROW};
use crate::{Memory, Model, Sid, SIDS};

/// The words of S-1-5-7 and of S-1-5-18: the bytes 1, 1, 0, 0, 0, 0, 0, 5, then the sub-authority.
const FIRST_WORD: u64 = 0x0500_0000_0000_0101;

/// The start with SIDs whose rows rise otherwise than their numbers.
fn mixed() -> Model {
    let mut model = Model::start();
    for sub_authorities in [&[9][..], &[], &[1, 2], &[6], &[7, 0], &[8, u32::MAX, 3]] {
        model.sids.enter(Sid::new([0, 0, 0, 0, 0, 5], sub_authorities).unwrap());
    }
    model
}

fn control(at: usize, words: usize) -> std::ops::Range<usize> {
    at..at + words
}

/// Where a SID's row begins.
fn row(place: usize) -> usize {
    control_word::SID_ROWS + place * SID_ROW
}

#[test]
fn the_table_stands_behind_the_pairs() {
    use control_word::{SID_COUNT, SID_PLACES, SID_ROWS};
    assert_eq!((SID_COUNT, SID_PLACES, SID_ROWS), (54, 55, 311));
    assert_eq!((SID_ROW, CONTROL_WORDS), (9, 2615));
    let words = Model::start().memory().control;
    assert_eq!(words[54..58], [2, 0, 1, 0]);
    assert_eq!(words[311..313], [FIRST_WORD, 7]);
    assert_eq!(words[320..322], [FIRST_WORD, 18]);
    let others = (57..2615).filter(|at| ![311, 312, 320, 321].contains(at));
    assert!(others.into_iter().all(|at| words[at] == 0));
}

#[test]
fn two_sub_authorities_a_word_and_places_by_rising_rows() {
    let words = mixed().memory().control;
    let head = |count: u64| 0x0500_0000_0000_0001 | count << 8;
    assert_eq!(words[control(row(3), 2)], [head(0), 0]);
    assert_eq!(words[control(row(4), 2)], [head(2), 1 | 2 << 32]);
    assert_eq!(words[control(row(7), 4)], [head(3), 8 | 0xFFFF_FFFF << 32, 3, 0]);
    // By count, then by the first two sub-authorities: none; 6, 7, 9, 18; 7 and 0, 1 and 2; three.
    assert_eq!(words[control(54, 10)], [8, 3, 5, 0, 2, 1, 6, 4, 7, 0]);
}

#[test]
fn a_full_table_is_read_back() {
    let mut model = Model::start();
    for at in 0..SIDS as u32 - 2 {
        model.sids.enter(Sid::new([1; 6], &[at.wrapping_mul(0x9E37_79B1); 15]).unwrap());
    }
    assert_eq!(model.memory().broken_rules(), [""; 0]);
    assert_eq!(model.memory().model(), Some(model));
}

/// The rules that the memory breaks after the change.
fn broken_after(change: impl FnOnce(&mut Memory)) -> Vec<&'static str> {
    let mut memory = mixed().memory();
    change(&mut memory);
    let broken = memory.broken_rules();
    assert_eq!(memory.model().is_none(), !broken.is_empty());
    broken
}

#[test]
fn counts_from_2_to_256() {
    for count in [0, 1, 257, 1 << 32, u64::MAX] {
        let broken = broken_after(|memory| memory.control[control_word::SID_COUNT] = count);
        assert!(broken.contains(&"SID count"), "{count}");
    }
    for count in [7, 9] {
        let broken = broken_after(|memory| memory.control[control_word::SID_COUNT] = count);
        assert!(!broken.is_empty() && !broken.contains(&"SID count"), "{count}");
    }
}

#[test]
fn the_first_two_are_the_starts() {
    for place in 0..2 {
        let at = row(place) + 1;
        let broken = broken_after(|memory| memory.control[at] += 20);
        assert!(broken.contains(&"first SIDs"));
    }
    let broken = broken_after(|memory| {
        memory.control.swap(row(0) + 1, row(1) + 1);
        memory.control.swap(57, 59);
    });
    assert_eq!(broken, ["first SIDs"]);
}

#[test]
fn a_row_is_that_of_a_sid() {
    let last = row(7);
    for (at, value) in [
        (last, 0x0500_0000_0000_0302),
        (last, 0x0500_0000_0000_1001),
        (last, 0),
        (last, 0x0500_0000_0000_0201),
        (last + 2, 3 | 1 << 32),
        (last + 8, 1 << 63),
        (last + 8, 1),
    ] {
        let broken = broken_after(|memory| memory.control[at] = value);
        assert!(broken.contains(&"SIDs"), "{at}: {value:X}");
    }
    let broken = broken_after(|memory| memory.control[last + 8] = 1);
    assert_eq!(broken, ["SIDs"], "past the last sub-authority");
    assert_eq!(broken_after(|memory| memory.control[last + 2] = u32::MAX.into()), [""; 0]);
}

#[test]
fn places_are_each_below_the_count_and_their_rows_rise() {
    let places = control_word::SID_PLACES;
    assert_eq!(broken_after(|memory| memory.control.swap(places, places + 1)), ["SID places"]);
    assert_eq!(broken_after(|memory| memory.control.swap(places + 6, places + 7)), ["SID places"]);
    for value in [0, 4, 8, 255, 256, 1 << 32, u64::MAX] {
        let broken = broken_after(|memory| memory.control[places + 7] = value);
        assert_eq!(broken, ["SID places"], "{value}");
    }
}

#[test]
fn two_equal_rows_are_refused_wherever_their_places_stand() {
    let equal = |memory: &mut Memory| {
        let sid: Vec<u64> = memory.control[control(row(6), SID_ROW)].to_vec();
        memory.control[control(row(4), SID_ROW)].copy_from_slice(&sid);
    };
    assert_eq!(broken_after(equal), ["different SIDs"]);
    let swapped = |memory: &mut Memory| {
        equal(memory);
        memory.control.swap(control_word::SID_PLACES + 5, control_word::SID_PLACES + 6);
    };
    assert_eq!(broken_after(swapped), ["different SIDs"]);
}

#[test]
fn what_stands_behind_the_last_is_zero() {
    for at in [control_word::SID_PLACES + 8, control_word::SID_ROWS - 1, row(8), CONTROL_WORDS - 1]
    {
        for value in [1, 1 << 63] {
            assert_eq!(broken_after(|memory| memory.control[at] = value), ["free"], "{at}");
        }
    }
}

#[test]
fn tokens_keep_numbers_in_the_table() {
    let mut model = start();
    let made = handle(&mut model, 0, &create(&[(60, 2)]));
    handle(&mut model, 0, &[10, made, 0, 0, 0, 1, 70]);
    let memory = model.memory();
    let words = [token_word::USER, token_word::GROUPS, token_word::RESTRICTING];
    for (word, is_group) in words.map(|word| (2 * TOKEN_ROW + word, word == token_word::GROUPS)) {
        let valid_with = |sid: u64| {
            let mut memory = memory.clone();
            let attributes = if is_group { memory.tokens[word] >> 32 << 32 } else { 0 };
            memory.tokens[word] = attributes | sid;
            let broken = memory.broken_rules();
            assert!(broken.is_empty() || broken == ["token SIDs"]);
            broken.is_empty()
        };
        for sid in [7, 18, 32, 33, 198, 199] {
            assert!(valid_with(sid), "{sid}");
        }
        for sid in [0, 1, 6, 8, 17, 19, 30, 31, 200, 285, 286, 0xFFFF_FFFF] {
            assert!(!valid_with(sid), "{sid}");
        }
        for sid in [1 << 32 | 32, u64::MAX] {
            assert!(is_group || !valid_with(sid), "{sid}");
        }
    }
}

#[test]
fn a_number_gives_its_packed_sid() {
    let (model, mut memory) = (mixed(), mixed().memory());
    for number in model.sids.numbers() {
        let packed = model.sids.sid(number).map(|sid| sid.packed());
        assert_eq!(memory.packed_sid(number), packed);
    }
    for number in [0, 6, 8, 17, 19, 31, 38, 285, u32::MAX] {
        assert_eq!(memory.packed_sid(number), None, "{number}");
    }
    memory.tokens.clear();
    memory.control[control_word::SID_PLACES] = 99;
    assert_eq!(memory.packed_sid(7), Some(Sid::nt(7).packed()), "nothing else is read");
    memory.control[row(0)] = 0;
    assert_eq!((memory.packed_sid(7), memory.packed_sid(18)), (None, Some(Sid::nt(18).packed())));
    memory.control.push(0);
    assert_eq!(memory.packed_sid(18), None);
}
