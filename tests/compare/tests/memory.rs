//! Refusal 13 through the static library: each rule of valid memory broken by itself, wrong sizes
//! of each part, and start on any memory.

use compare::damages::{
    compare_clients, compare_numbers, compare_pairs, compare_poked, compare_roots, compare_tables,
    empty_feed, is_refused, of_other_sizes, refused_calls, starts,
};
use compare::lists::on_memory;
use compare::Lent;
use gen::{each_damage, each_seed, garbage, near_the_last_numbers, one_seed, state};
use model::Model;

#[test]
fn undamaged_memory_is_served() {
    each_seed(0..1000, |_, rng| {
        for memory in [state(rng).memory(), near_the_last_numbers(rng).memory()] {
            assert_eq!(on_memory::<Lent>(&memory, &empty_feed()).refusal, 0);
        }
    });
    for call in refused_calls() {
        assert_eq!(on_memory::<Lent>(&Model::start().memory(), &call).refusal, 0);
    }
}

#[test]
fn each_damage_is_refused_and_nothing_written() {
    each_damage(250, |damage, _, memory| {
        let place = format!("{}: {}", damage.rule, damage.what);
        is_refused::<Lent>(&memory, &place);
        starts::<Lent>(&memory, &place);
    });
}

#[test]
fn wrong_sizes_are_refused_and_nothing_written() {
    each_seed(0..8, |seed, rng| {
        let model = if seed == 0 { Model::start() } else { state(rng) };
        for (place, memory) in of_other_sizes(&model.memory()) {
            is_refused::<Lent>(&memory, &place);
            starts::<Lent>(&memory, &place);
        }
    });
}

#[test]
fn a_root_is_at_most_the_tokens_number() {
    compare_roots::<Lent>(0..100);
}

#[test]
fn a_client_is_an_impersonation_token_at_its_own_level_at_most() {
    compare_clients::<Lent>(0..100);
}

#[test]
fn a_pair_is_of_two_tokens_that_request_16_could_leave() {
    let valid = compare_pairs::<Lent>(0..100);
    println!("{valid} pairs more were valid");
    assert!(valid > 10 || one_seed().is_some(), "too few to show anything: {valid}");
}

#[test]
fn each_word_of_the_sid_table() {
    let valid = compare_tables::<Lent>(0..60);
    println!("{valid} changed tables were still valid");
    assert!(valid > 100 || one_seed().is_some(), "too few to show anything: {valid}");
}

#[test]
fn tokens_keep_numbers_in_the_table() {
    compare_numbers::<Lent>(0..200);
}

#[test]
fn changed_anywhere_both_agree() {
    let valid = compare_poked::<Lent>(0..20_000);
    println!("{valid} changed memories were still valid");
    assert!(valid > 1000 || one_seed().is_some(), "too few to show anything: {valid}");
}

#[test]
fn start_overwrites_any_memory() {
    each_seed(0..300, |_, rng| {
        starts::<Lent>(&state(rng).memory(), "a state");
        starts::<Lent>(&garbage(rng), "anything");
    });
}
