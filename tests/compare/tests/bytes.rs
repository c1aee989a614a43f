//! Every lent byte, by its address: whatever stood in the memory, in the answer buffer and on the
//! stack before a call, the bytes after it are the model's, and none beside them is written.

use compare::damages::{empty_feed, is_refused, refused_calls};
use compare::lists::{both, on_memory, same_bytes, CALLS, FEW_CALLS};
use compare::Lent;
use gen::{
    each_seed, filled, near_the_last_numbers, one_seed, run, state, with_clients, with_conditions,
    with_pairs, with_sids, Broker, Calls, Counts, Rng,
};
use model::{HandleRecord, Memory, Model, HANDLE_BYTES};

/// What is left in memory, in answer buffers and on the stack.
const PATTERNS: [u8; 8] = [0x00, 0x01, 0x55, 0x7F, 0x80, 0x99, 0xAA, 0xFF];
/// Values of one byte of a handle's record, where a free slot has 0.
const BYTES: [u8; 5] = [0x01, 0x02, 0x10, 0x80, 0xFF];

#[test]
fn a_start_leaves_the_same_bytes_over_any_memory_and_any_stack() {
    let expected = Model::start().memory().bytes();
    for memory in PATTERNS {
        for stack in PATTERNS {
            let mut lent = Lent::with_filler(&filled(memory), stack);
            assert_eq!(lent.start(), 0);
            same_bytes(&lent.bytes(), &expected, ("start over", memory, stack));
        }
    }
}

#[test]
fn a_refused_call_writes_no_byte() {
    for memory in PATTERNS.map(filled) {
        for stack in PATTERNS {
            let mut lent = Lent::with_filler(&memory, stack);
            for call in refused_calls() {
                assert_eq!(lent.make(&call).refusal, 13);
                same_bytes(&lent.bytes(), &memory.bytes(), &call);
            }
        }
    }
}

/// A list of calls, each over every pattern.
fn over_any_stack(seed: u64, first: Model, calls: usize, counts: &mut Counts) {
    let mut brokers = PATTERNS.map(|pattern| Lent::with_filler(&first.memory(), pattern));
    run(seed, first, calls, |step| {
        counts.step(step);
        brokers.iter_mut().for_each(|broker| both(broker, step));
    });
}

/// Lists of every request with every status.
#[test]
fn a_list_of_calls_leaves_the_models_bytes_over_any_stack() {
    let mut counts = Counts::default();
    each_seed(0..120, |seed, rng| {
        let first = match seed % 4 {
            0 => Model::start(),
            1 => state(rng),
            2 => near_the_last_numbers(rng),
            _ => with_clients(rng),
        };
        over_any_stack(seed, first, CALLS, &mut counts);
    });
    each_seed(200..700, |seed, rng| over_any_stack(seed, with_pairs(rng), FEW_CALLS, &mut counts));
    each_seed(700..760, |seed, rng| over_any_stack(seed, with_conditions(rng), CALLS, &mut counts));
    each_seed(760..860, |seed, rng| over_any_stack(seed, with_sids(rng), FEW_CALLS, &mut counts));
    println!("statuses of the requests:\n{counts}");
    if one_seed().is_none() {
        counts.check_statuses(5);
    }
}

/// The handle slots that are free, or those that are not.
fn slots(memory: &Memory, free: bool) -> impl Iterator<Item = usize> + '_ {
    let is_free = |slot: &usize| memory.handles[*slot].number == 0;
    (0..memory.handles.len()).filter(move |slot| is_free(slot) == free)
}

/// The memory with another byte in a handle slot.
fn with_byte(memory: &Memory, slot: usize, at: usize, byte: u8) -> Memory {
    let mut memory = memory.clone();
    let mut bytes = memory.handles[slot].bytes();
    bytes[at] = byte;
    memory.handles[slot] = HandleRecord::from_bytes(&bytes);
    memory
}

#[test]
fn a_free_handle_slot_with_a_byte_that_is_not_zero_is_refused() {
    let models = [Model::start(), state(&mut Rng::new(1)), state(&mut Rng::new(2))];
    for memory in models.map(|model| model.memory()) {
        for slot in slots(&memory, true) {
            for (at, byte) in (0..HANDLE_BYTES).flat_map(|at| BYTES.map(|byte| (at, byte))) {
                let place = format!("slot {slot}, byte {at} is {byte:#04X}");
                is_refused::<Lent>(&with_byte(&memory, slot, at, byte), &place);
            }
        }
    }
}

#[test]
fn a_live_handle_with_any_other_byte_both_judge_alike() {
    let (mut served, mut refused) = (0, 0);
    each_seed(0..10, |_, rng| {
        let memory = state(rng).memory();
        for slot in slots(&memory, false) {
            for (at, byte) in (0..HANDLE_BYTES).flat_map(|at| BYTES.map(|byte| (at, byte))) {
                let memory = with_byte(&memory, slot, at, byte);
                match on_memory::<Lent>(&memory, &empty_feed()).refusal {
                    0 => served += 1,
                    _ => refused += 1,
                }
            }
        }
    });
    assert!(served > 100 && refused > 100 || one_seed().is_some(), "{served} and {refused}");
}
