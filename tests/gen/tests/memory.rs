//! Valid memories are read, damaged ones are not.

use gen::{each_damage, poke, state, Rng, DAMAGES};
use model::{Model, RULES};

#[test]
fn undamaged_memories_are_valid() {
    for seed in 0..2000 {
        let model = state(&mut Rng::new(seed));
        let memory = model.memory();
        assert_eq!(memory.broken_rules(), [""; 0], "seed {seed}");
        assert_eq!(memory.model(), Some(model), "seed {seed}");
    }
}

/// The rules that a damage breaks: its own alone, with four exceptions that cannot be helped.
fn breaks(rule: &'static str, what: &str) -> Vec<&'static str> {
    match what {
        "the next token number is 0" => vec![rule, "numbers"],
        "a free handle slot with a number" => vec![rule, "ranges"],
        "no SIDs" | "one SID" => vec![rule, "first SIDs", "token SIDs"],
        _ => vec![rule],
    }
}

#[test]
fn each_damage_breaks_its_rule_alone() {
    each_damage(400, |damage, _, memory| {
        let place = format!("{}, {}", damage.rule, damage.what);
        assert_eq!(memory.broken_rules(), breaks(damage.rule, damage.what), "{place}");
        assert_eq!(memory.model(), None, "{place}");
    });
}

#[test]
fn every_rule_has_a_damage() {
    for &(rule, _) in RULES {
        assert!(DAMAGES.iter().any(|damage| damage.rule == rule), "{rule}");
    }
}

#[test]
fn a_poked_memory_is_refused_or_holds_what_it_says() {
    let (mut read, mut refused) = (0, 0);
    for seed in 0..4000 {
        let mut rng = Rng::new(seed);
        let mut memory = state(&mut rng).memory();
        poke(&mut rng, &mut memory);
        match memory.model() {
            Some(model) => {
                assert_eq!(model.memory(), memory, "seed {seed}");
                read += 1;
            }
            None => refused += 1,
        }
    }
    println!("{read} read, {refused} refused");
    assert!(read > 400 && refused > 400);
}

#[test]
fn the_start_differs_from_damaged_starts() {
    let start = Model::start();
    for damage in DAMAGES {
        if let Some(memory) = damage.apply(&mut Rng::new(1), &start) {
            assert_ne!(memory, start.memory());
            assert_eq!(memory.model(), None, "{}, {}", damage.rule, damage.what);
        }
    }
}
