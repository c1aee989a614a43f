//! Requests with SIDs through the static library, against the model; and the SID of a number.

use compare::{sids, Lent};
use gen::{each_seed, garbage, one_seed, state, with_sids, Broker, Counts, Rng};
use model::{control_word, Memory, Model, CONTROL_WORDS, MAX_SID_BYTES, SIDS, SID_ROW};

#[test]
fn known_requests() {
    sids::compare_known::<Lent>();
}

#[test]
fn sids_of_every_length() {
    sids::compare_lengths::<Lent>();
}

#[test]
fn a_full_table() {
    sids::compare_filled::<Lent>();
    sids::compare_many::<Lent>();
}

#[test]
fn every_case_of_sids() {
    let mut counts = Counts::default();
    sids::compare_random::<Lent>(0..3000, &mut counts);
    println!("SIDs:\n{counts}");
    if one_seed().is_none() {
        counts.check_sids(5);
    }
}

/// Numbers about those in the table.
fn numbers(model: &Model) -> Vec<u32> {
    let last = 29 + model.sids.sids().len() as u32;
    let others = [0, 6, 8, 17, 19, 31, last + 1, last + 2, 286, 1 << 31, u32::MAX];
    [model.sids.numbers(), others.to_vec()].concat()
}

/// The library's SID of the number is the model's, in buffers of its size, longer and shorter.
fn same_sid(memory: &Memory, number: u32) -> bool {
    let (lent, expected) = (Lent::lend(memory), memory.packed_sid(number));
    let size = expected.as_ref().map_or(12, Vec::len);
    for length in [0, 1, 8, size - 1, size, size + 1, MAX_SID_BYTES, 100] {
        let fits = expected.clone().filter(|packed| packed.len() <= length);
        assert_eq!(lent.sid(number, length), fits, "{number} in {length} bytes");
    }
    expected.is_some()
}

#[test]
fn the_sid_of_a_number() {
    let mut found = 0;
    each_seed(0..60, |seed, rng| {
        let model = if seed % 2 == 0 { state(rng) } else { with_sids(rng) };
        let memory = model.memory();
        let all = numbers(&model).into_iter().filter(|&number| same_sid(&memory, number)).count();
        assert_eq!(all, model.sids.sids().len());
        found += all;
    });
    assert!(found > 1000 || one_seed().is_some(), "{found}");
}

#[test]
fn the_sid_of_a_number_reads_the_control_words_alone() {
    let mut rng = Rng::new(1);
    let (mut memory, model) = (garbage(&mut rng), with_sids(&mut rng));
    memory.control[control_word::SID_COUNT..]
        .copy_from_slice(&model.memory().control[control_word::SID_COUNT..]);
    memory.control[control_word::SID_PLACES..control_word::SID_ROWS].fill(u64::MAX);
    assert!(model.sids.numbers().into_iter().all(|number| same_sid(&memory, number)));
}

#[test]
fn no_sid_of_a_row_that_is_none_or_of_words_of_another_size() {
    let model = with_sids(&mut Rng::new(2));
    let memory = model.memory();
    for number in [7, 18, 32] {
        let place = model.sids.numbers().iter().position(|&other| other == number);
        let Some(place) = place else { continue };
        let row = control_word::SID_ROWS + SID_ROW * place;
        for byte in 0..SID_ROW * size_of::<u64>() {
            for bits in [1, 0x80, 0xFF] {
                let mut memory = memory.clone();
                memory.control[row + byte / size_of::<u64>()] ^= bits << (8 * (byte % 8));
                same_sid(&memory, number);
            }
        }
    }
    for size in [0, 1, 54, CONTROL_WORDS - 1, CONTROL_WORDS + 1, 2 * CONTROL_WORDS] {
        let mut memory = memory.clone();
        memory.control.resize(size, 0);
        assert!(!same_sid(&memory, 7) && !same_sid(&memory, 18), "{size} control words");
    }
    assert_eq!(SIDS, 256);
}
