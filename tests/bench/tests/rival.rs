//! The rival has the broker's duties: it does what the model does, refusals and memory included.

use bench::Rival;
use compare::{conditions, damages, lists, sids};
use gen::{check_cuts, each_damage, each_seed, one_seed, Broker, Calls, Counts};
use model::{Model, MIN_BUFFER};

#[test]
fn lists_of_calls() {
    let mut counts = Counts::default();
    lists::compare::<Rival>(0..792, &mut counts);
    if one_seed().is_none() {
        counts.check_statuses(5);
        counts.check_groups(5);
        counts.check_restrictions(5);
        counts.check_roots(5);
        counts.check_clients(3);
        counts.check_refusals(5);
    }
}

#[test]
fn gates() {
    let mut counts = Counts::default();
    lists::compare_clients::<Rival>(0..2000, &mut counts);
    if one_seed().is_none() {
        counts.check_gates(3);
    }
}

#[test]
fn links() {
    let mut counts = Counts::default();
    lists::compare_pairs::<Rival>(0..4000, &mut counts);
    if one_seed().is_none() {
        counts.check_links(3);
        counts.check_partners(3);
    }
}

#[test]
fn conditions_of_all_kinds() {
    conditions::compare_known::<Rival>();
    assert!(conditions::compare_short::<Rival>() > 100);
    assert_eq!(conditions::compare_long::<Rival>(), 8 + 8 + 1022);
    let mut counts = Counts::default();
    conditions::compare_random::<Rival>(0..1000, &mut counts);
    if one_seed().is_none() {
        counts.check_conditions(5);
    }
}

#[test]
fn requests_with_sids() {
    sids::compare_known::<Rival>();
    sids::compare_lengths::<Rival>();
    sids::compare_filled::<Rival>();
    sids::compare_many::<Rival>();
    let mut counts = Counts::default();
    sids::compare_random::<Rival>(0..2000, &mut counts);
    if one_seed().is_none() {
        counts.check_sids(3);
    }
}

#[test]
fn damaged_memory() {
    each_damage(250, |damage, _, memory| damages::is_refused::<Rival>(&memory, damage.what));
    damages::compare_poked::<Rival>(0..5000);
    damages::compare_roots::<Rival>(0..50);
    damages::compare_clients::<Rival>(0..50);
    let valid = damages::compare_pairs::<Rival>(0..100);
    assert!(valid > 10 || one_seed().is_some(), "too few to show anything: {valid}");
    assert!(damages::compare_tables::<Rival>(0..30) > 50 || one_seed().is_some());
    damages::compare_numbers::<Rival>(0..100);
    for (place, memory) in damages::of_other_sizes(&Model::start().memory()) {
        damages::is_refused::<Rival>(&memory, &place);
        damages::starts::<Rival>(&memory, &place);
    }
}

#[test]
fn lists_to_be_timed() {
    for work in bench::work::all() {
        let mut model = work.memory.model().expect("a valid memory");
        let mut rival = Rival::lend(&work.memory);
        for (station, chunk) in work.feeds() {
            let fed = model.feed(station, chunk, MIN_BUFFER);
            assert_eq!(rival.feed(station, chunk, MIN_BUFFER), fed, "{}", work.name);
            let is_served = gen::status(&fed.answer) == Some(0);
            assert!(is_served || !work.name.starts_with("request 1"), "{}", work.name);
        }
        lists::same_bytes(&rival.bytes(), &model.memory().bytes(), work.name);
    }
}

#[test]
fn cuts() {
    each_seed(0..20, |seed, _| check_cuts::<Rival>(seed, &Model::start(), 300));
}
