//! What holds of request 18 on the model itself: it changes nothing, reads the handle's token alone, and
//! its answers go together as the conditions do.

use std::cell::RefCell;
use std::collections::BTreeMap;

use gen::{
    condition_body, each_seed, fields, flat, one_seed, run, state, with_conditions, Rng, Step,
};
use model::{
    Condition, Handle, Model, Privileges, Request, Token, ALL_PRIVILEGES, MAX_BODY, MAX_DEPTH,
    STATIONS,
};

/// The answer's body to a condition.
fn answer(model: &Model, station: usize, handle: u32, condition: &Condition) -> Vec<u8> {
    let request = Request::Evaluate { handle, condition: condition.clone() };
    let body = flat(&fields(&request));
    let mut after = model.clone();
    let answer = after.serve(station, &body);
    assert_eq!(&after, model, "{request:?}");
    answer
}

/// Conditions that are answered, drawn in random states: the state, station, handle and condition.
fn each_answered(
    seeds: std::ops::Range<u64>,
    check: impl Fn(&Model, usize, u32, &Condition, bool),
) {
    let seen = RefCell::new(0);
    each_seed(seeds, |seed, rng| {
        let model = if seed % 2 == 0 { with_conditions(rng) } else { state(rng) };
        for _ in 0..10 {
            let station = rng.below(STATIONS);
            let body = condition_body(rng, &model, station);
            let Some(Request::Evaluate { handle, condition }) = Request::read(&body) else {
                continue;
            };
            if let [0, met] = answer(&model, station, handle, &condition)[..] {
                check(&model, station, handle, &condition, met == 1);
                *seen.borrow_mut() += 1;
            }
        }
    });
    let seen = seen.into_inner();
    println!("{seen} conditions were answered");
    assert!(seen > 1000 || one_seed().is_some(), "{seen}");
}

#[test]
fn a_condition_and_its_negation_differ() {
    each_answered(0..500, |model, station, handle, condition, met| {
        let negated = Condition::Negated(Box::new(condition.clone()));
        let fits = condition.depth() < MAX_DEPTH;
        let expected = if fits { vec![0, u8::from(!met)] } else { vec![1] };
        assert_eq!(answer(model, station, handle, &negated), expected, "{condition:?}");
    });
}

#[test]
fn a_list_of_one_means_what_it_holds() {
    each_answered(500..1000, |model, station, handle, condition, met| {
        let fits = condition.depth() < MAX_DEPTH;
        let expected = if fits { vec![0, u8::from(met)] } else { vec![1] };
        for list in [Condition::AllOf, Condition::AnyOf] {
            let list = list(vec![condition.clone()]);
            assert_eq!(answer(model, station, handle, &list), expected, "{condition:?}");
        }
    });
}

#[test]
fn all_of_and_any_of_are_each_others_negations() {
    each_answered(1000..1500, |model, station, handle, condition, met| {
        let (Condition::AllOf(list) | Condition::AnyOf(list)) = condition else { return };
        let negated = list.iter().cloned().map(|inner| Condition::Negated(Box::new(inner)));
        let other = match condition {
            Condition::AllOf(_) => Condition::AnyOf(negated.collect()),
            _ => Condition::AllOf(negated.collect()),
        };
        let bytes = flat(&fields(&Request::Evaluate { handle, condition: other.clone() })).len();
        if other.depth() <= MAX_DEPTH && bytes <= MAX_BODY {
            let expected = [0, u8::from(!met)];
            assert_eq!(answer(model, station, handle, &other), expected, "{condition:?}");
        }
    });
}

#[test]
fn the_order_of_a_list_does_not_matter() {
    each_answered(1500..2000, |model, station, handle, condition, met| {
        let turned = match condition {
            Condition::AllOf(list) => Condition::AllOf(list.iter().rev().cloned().collect()),
            Condition::AnyOf(list) => Condition::AnyOf(list.iter().rev().cloned().collect()),
            _ => return,
        };
        assert_eq!(answer(model, station, handle, &turned), [0, u8::from(met)], "{condition:?}");
    });
}

/// The token with all that no condition reads made otherwise.
fn otherwise(token: &Token) -> Token {
    let Privileges { enabled, used, .. } = token.privileges;
    let privileges = Privileges { present: ALL_PRIVILEGES, enabled, default: enabled, used: !used };
    Token {
        privileges,
        user: !token.user,
        restricting: token.restricting.iter().map(|sid| !sid).collect(),
        modified: !token.modified,
        ..token.clone()
    }
}

#[test]
fn only_enabled_privileges_and_groups_of_the_handles_token_are_read() {
    each_answered(2000..2500, |model, station, handle, condition, met| {
        let is_it = |live: &&Handle| live.number == handle && live.station as usize == station;
        let handle_record = model.handles.iter().flatten().find(is_it).expect("it was answered");
        let mut other = model.clone();
        for token in other.tokens.iter_mut().flatten() {
            let is_asked = token.number == handle_record.token;
            *token = otherwise(token);
            if !is_asked {
                token.privileges = Privileges::default();
                token.groups.clear();
            }
        }
        assert_eq!(answer(&other, station, handle, condition), [0, u8::from(met)]);
    });
}

/// The state without its streams.
fn without_streams(model: &Model) -> Model {
    let mut model = model.clone();
    for station in 0..STATIONS as u32 {
        model.reconnect(station);
    }
    model
}

#[test]
fn no_list_of_calls_changes_anything_by_request_18() {
    let seen = RefCell::new(BTreeMap::new());
    let check = |step: &Step| {
        let Some((_, body)) = step.ended().filter(|(_, body)| body[0] == 18) else { return };
        assert_eq!(without_streams(step.before), without_streams(step.after), "{:?}", step.call);
        let is_whole = Request::read(&body).is_some();
        *seen.borrow_mut().entry((is_whole, step.status())).or_insert(0) += 1;
    };
    each_seed(0..20, |seed, _| run(seed, Model::start(), 500, check));
    each_seed(100..300, |seed, rng| run(seed, state(rng), 150, check));
    each_seed(300..700, |seed, rng| run(seed, with_conditions(rng), 100, check));
    println!("requests 18, in their layout or not, by status: {:?}", seen.borrow());
    for case in [(false, 1), (true, 0), (true, 2), (true, 3), (true, 5)] {
        let count = seen.borrow().get(&(case.0, Some(case.1))).copied().unwrap_or(0);
        assert!(count >= 10 || one_seed().is_some(), "{case:?}: {count}");
    }
}

#[test]
fn equal_seeds_give_equal_conditions() {
    for seed in 0..100 {
        let draw = || {
            let mut rng = Rng::new(seed);
            let model = with_conditions(&mut rng);
            condition_body(&mut rng, &model, 3)
        };
        assert_eq!(draw(), draw());
    }
}
