//! Every request gets every status that it can get, request 6 meets every kind of group, request 10
//! every kind of list, tokens of every kind of root are copied, request 12 meets every row of its gate
//! table, requests 16, 17 and 18 every case of theirs, requests 3, 10, 14 and 15 every case of SIDs, and the
//! memory always holds the state.

use gen::{
    body, condition_body, each_seed, fields, flat, near_the_last_numbers, one_seed, sid_body,
    state, with_clients, with_conditions, with_copies, with_groups, with_pairs, with_restrictions,
    with_sids, Call, Calls, Counts, Rng, Step,
};
use model::{framed, Fed, Mask, Model, Request, HANDLES, IMPERSONATE, MIN_BUFFER, STATIONS};

/// Feeds so many requests as whole frames and counts their statuses.
fn run(seed: u64, model: Model, requests: usize, counts: &mut Counts) {
    run_of(body, seed, model, requests, counts);
}

/// The same, with bodies drawn so.
fn run_of(
    body: fn(&mut Rng, &Model, usize) -> Vec<u8>,
    seed: u64,
    mut model: Model,
    requests: usize,
    counts: &mut Counts,
) {
    let mut rng = Rng::new(seed);
    for step in 0..requests {
        let station = rng.below(STATIONS);
        make(&mut model, &Call::Reconnect { station: station as u32 }, counts);
        let body = body(&mut rng, &model, station);
        let before = model.clone();
        let (station, chunk) = (station as u32, framed(&body));
        let call = Call::Feed { station, chunk, buffer_len: MIN_BUFFER };
        let fed = make(&mut model, &call, counts);
        let place = format!("seed {seed}, step {step}, station {station}, body {body:02X?}");
        assert_eq!((fed.refusal, fed.used), (0, framed(&body).len()), "{place}");
        let is_success = gen::status(&fed.answer) == Some(0);
        assert!(is_success || model == before, "refused but changed: {place}");
        assert_eq!(model.memory().model().as_ref(), Some(&model), "{place}");
    }
}

/// Makes a call and counts it.
fn make(model: &mut Model, call: &Call, counts: &mut Counts) -> Fed {
    let before = model.clone();
    let fed = model.make(call);
    counts.step(&Step { call, before: &before, after: model, fed: &fed });
    fed
}

/// The start, and all handle slots but a few taken.
fn crowded() -> Model {
    let mut model = Model::start();
    let open = framed(&flat(&fields(&Request::Open { mask: Mask::ALL.0 })));
    for handle in 4..HANDLES {
        model.feed((handle % STATIONS) as u32, &open, MIN_BUFFER);
    }
    model
}

/// The start, after each station has made a copy of its token for impersonation, and put in the token's
/// place a restricted one without Impersonate.
fn restricted() -> Model {
    let mut model = Model::start();
    for station in 0..STATIONS as u32 {
        let mut ask = |request| model.feed(station, &framed(&flat(&fields(&request))), MIN_BUFFER);
        ask(Request::Open { mask: Mask::ALL.0 });
        let handle = 3 * station + 1;
        let (kind, level, mask) = (2, 3, Mask::ALL.0);
        ask(Request::Duplicate { handle, kind, level, mask });
        let (write_restricted, remove, deny, sids) = (0, 1 << IMPERSONATE, vec![], vec![7]);
        ask(Request::Restrict { handle, write_restricted, remove, deny, sids });
        ask(Request::Install { handle: handle + 2 });
        ask(Request::Close { handle });
        ask(Request::Close { handle: handle + 2 });
    }
    model
}

/// Short runs with pairs: a fifth session comes from there.
fn run_pairs(seeds: std::ops::Range<u64>, counts: &mut Counts) {
    for seed in seeds {
        run(seed, with_pairs(&mut Rng::new(seed)), 50, counts);
    }
}

#[test]
fn every_status_from_the_start() {
    let mut counts = Counts::default();
    for seed in 0..40 {
        let first = match seed % 4 {
            0 => crowded(),
            1 => restricted(),
            _ => Model::start(),
        };
        run(seed, first, 500, &mut counts);
    }
    run_pairs(40..640, &mut counts);
    println!("from the start:\n{counts}");
    counts.check_statuses(20);
}

#[test]
fn every_status_from_random_states() {
    let mut counts = Counts::default();
    for seed in 1000..1600 {
        run(seed, state(&mut Rng::new(seed)), 50, &mut counts);
    }
    run_pairs(1600..2200, &mut counts);
    println!("from random states:\n{counts}");
    counts.check_statuses(20);
}

#[test]
fn every_kind_of_group() {
    let mut counts = Counts::default();
    for seed in 3000..3400 {
        run(seed, with_groups(), 100, &mut counts);
    }
    println!("with groups:\n{counts}");
    counts.check_groups(10);
}

#[test]
fn every_restriction() {
    let mut counts = Counts::default();
    for seed in 4000..4800 {
        run(seed, with_restrictions(), 100, &mut counts);
    }
    println!("with restrictions:\n{counts}");
    counts.check_restrictions(20);
}

#[test]
fn every_kind_of_root() {
    let mut counts = Counts::default();
    for seed in 5000..6000 {
        let first = if seed % 2 == 0 { with_copies() } else { state(&mut Rng::new(seed)) };
        run(seed, first, 100, &mut counts);
    }
    println!("with copies:\n{counts}");
    counts.check_roots(20);
}

#[test]
fn every_row_of_the_gate_table() {
    let mut counts = Counts::default();
    each_seed(6000..10_000, |seed, rng| run(seed, with_clients(rng), 25, &mut counts));
    println!("with clients:\n{counts}");
    if one_seed().is_none() {
        counts.check_gates(8);
        counts.check_uses(4);
    }
}

#[test]
fn everything_that_can_happen_to_a_client() {
    let mut counts = Counts::default();
    each_seed(10_000..11_000, |seed, rng| {
        let first = if seed % 2 == 0 { with_clients(rng) } else { state(rng) };
        run(seed, first, 100, &mut counts);
    });
    println!("with clients:\n{counts}");
    if one_seed().is_none() {
        counts.check_clients(10);
    }
}

#[test]
fn every_case_of_linking() {
    let mut counts = Counts::default();
    each_seed(11_000..15_000, |seed, rng| run(seed, with_pairs(rng), 60, &mut counts));
    println!("with pairs:\n{counts}");
    if one_seed().is_none() {
        counts.check_links(10);
        counts.check_partners(10);
    }
}

#[test]
fn every_case_of_conditions() {
    let mut counts = Counts::default();
    each_seed(15_000..17_000, |seed, rng| {
        let first = if seed % 3 == 0 { state(rng) } else { with_conditions(rng) };
        run_of(condition_body, seed, first, 30, &mut counts);
    });
    println!("conditions:\n{counts}");
    if one_seed().is_none() {
        counts.check_conditions(20);
    }
}

#[test]
fn every_case_of_sids() {
    let mut counts = Counts::default();
    each_seed(17_000..19_000, |seed, rng| {
        let first = if seed % 4 == 0 { state(rng) } else { with_sids(rng) };
        run_of(sid_body, seed, first, 30, &mut counts);
    });
    println!("SIDs:\n{counts}");
    if one_seed().is_none() {
        counts.check_sids(10);
    }
}

#[test]
fn the_last_numbers_run_out() {
    let mut counts = Counts::default();
    for seed in 2000..2040 {
        run(seed, near_the_last_numbers(&mut Rng::new(seed)), 100, &mut counts);
    }
    for request in [1, 3, 9, 10, 14, 15] {
        assert!(counts.of(request, 0) > 0 && counts.of(request, 8) > 0);
    }
}
