//! What document 02 says of the SID table, on the model itself: it grows by 14 and 15 alone, by the new SIDs
//! in the request's order; each SID has one number and keeps it; tokens keep numbers in the table; and 14
//! and 15 are 3 and 10 once their SIDs have numbers.

use std::cell::RefCell;
use std::collections::BTreeMap;

use gen::{each_seed, fields, flat, one_seed, run, run_with_sids, state, with_sids, Step};
use model::{Model, Request, Sid, SidTable, Token, MAX_BODY, SIDS};

/// Many scripts, from the start, from random states and from those with tables that are nearly full.
fn run_all(check: impl Fn(&Step) + Copy) {
    each_seed(0..10, |seed, _| run(seed, Model::start(), 500, check));
    each_seed(10..20, |seed, _| run_with_sids(seed, Model::start(), 500, check));
    each_seed(100..200, |seed, rng| run_with_sids(seed, state(rng), 100, check));
    each_seed(200..1000, |seed, rng| run_with_sids(seed, with_sids(rng), 60, check));
}

/// The station and the request that a feed ended, and whether it was served.
fn ended(step: &Step) -> Option<(usize, Request, bool)> {
    let (station, body) = step.ended()?;
    Some((station, Request::read(&body)?, step.status() == Some(0)))
}

/// The packed SIDs of a request, in their order.
fn given(request: &Request) -> Vec<Sid> {
    match request {
        Request::CreatePacked { user, groups, .. } => {
            [*user].into_iter().chain(groups.iter().map(|&(sid, _)| sid)).collect()
        }
        Request::RestrictPacked { sids, .. } => sids.clone(),
        _ => vec![],
    }
}

/// Each case came so often at least, unless one seed alone is run.
fn check_counts<C: Ord + std::fmt::Debug>(seen: &BTreeMap<C, usize>, cases: &[C]) {
    for case in cases {
        let count = seen.get(case).copied().unwrap_or(0);
        assert!(one_seed().is_some() || count >= 20, "{case:?}: {count}");
    }
}

#[test]
fn the_table_grows_by_the_new_sids_of_14_and_15_in_their_order() {
    let seen = RefCell::new(BTreeMap::new());
    run_all(|step| {
        let served = ended(step).filter(|&(_, _, served)| served);
        let given = served.map_or(vec![], |(_, request, _)| self::given(&request));
        let mut expected = step.before.sids.sids().to_vec();
        for sid in given {
            if !expected.contains(&sid) {
                expected.push(sid);
            }
        }
        assert_eq!(step.after.sids.sids(), expected, "{:?}", step.call);
        assert!(expected.len() <= SIDS, "{:?}", step.call);
        let grown = expected.len() - step.before.sids.sids().len();
        *seen.borrow_mut().entry(grown.min(4)).or_insert(0) += 1;
    });
    println!("SIDs entered by a request: {:?}", seen.borrow());
    check_counts(&seen.borrow(), &[0, 1, 2, 3, 4]);
}

#[test]
fn numbers_are_equal_exactly_when_sids_are() {
    each_seed(0..60, |seed, rng| {
        run_with_sids(seed, with_sids(rng), 40, |step| {
            let table = &step.after.sids;
            let numbers = table.numbers();
            assert!(numbers.windows(2).all(|two| two[0] < two[1]));
            for (place, (&sid, &number)) in table.sids().iter().zip(&numbers).enumerate() {
                assert!(!table.sids()[..place].contains(&sid), "{:?}", step.call);
                assert_eq!((table.number(sid), table.sid(number)), (Some(number), Some(sid)));
                let expected = [7, 18].get(place).copied().unwrap_or(30 + place as u32);
                assert_eq!(number, expected);
            }
        });
    });
}

fn sids_of(token: &Token) -> Vec<u32> {
    let groups = token.groups.iter().map(|group| group.sid);
    [token.user].into_iter().chain(groups).chain(token.restricting.iter().copied()).collect()
}

#[test]
fn tokens_keep_numbers_in_the_table() {
    run_all(|Step { call, after, .. }| {
        for token in after.tokens.iter().flatten() {
            assert!(sids_of(token).iter().all(|&sid| after.sids.has(sid)), "{call:?}");
        }
    });
}

#[test]
fn a_created_token_has_the_sids_that_were_given() {
    let seen = RefCell::new(BTreeMap::new());
    run_all(|step| {
        let Some((_, request @ Request::CreatePacked { .. }, true)) = ended(step) else { return };
        let token = step.after.token(step.before.next_token).expect("a success has a token");
        let sid = |&number: &u32| step.after.sids.sid(number).expect("a number in the table");
        let sids: Vec<Sid> = sids_of(token).iter().map(sid).collect();
        assert_eq!(sids, given(&request), "{:?}", step.call);
        let has_new = step.before.sids != step.after.sids;
        *seen.borrow_mut().entry(has_new).or_insert(0) += 1;
    });
    check_counts(&seen.borrow(), &[false, true]);
}

/// The request by numbers, once its SIDs are in the table.
fn by_numbers(request: &Request, table: &SidTable) -> Option<Request> {
    let number = |sid: &Sid| table.number(*sid).expect("it is entered");
    match request {
        Request::CreatePacked { user, session, integrity, present, default, groups } => {
            let groups = groups.iter().map(|(sid, attributes)| (number(sid), *attributes));
            Some(Request::Create {
                user: number(user),
                session: *session,
                integrity: *integrity,
                present: *present,
                default: *default,
                groups: groups.collect(),
            })
        }
        Request::RestrictPacked { handle, write_restricted, remove, deny, sids } => {
            Some(Request::Restrict {
                handle: *handle,
                write_restricted: *write_restricted,
                remove: *remove,
                deny: deny.clone(),
                sids: sids.iter().map(number).collect(),
            })
        }
        _ => None,
    }
}

#[test]
fn requests_14_and_15_are_3_and_10_once_their_sids_have_numbers() {
    let seen = RefCell::new(BTreeMap::new());
    run_all(|step| {
        let Some((station, request, _)) = ended(step) else { return };
        let mut entered = step.before.clone();
        for sid in given(&request) {
            entered.sids.enter(sid);
        }
        let plain = by_numbers(&request, &entered.sids).filter(|_| entered.sids.fits());
        let Some(plain) = plain.map(|plain| flat(&fields(&plain))) else { return };
        assert!(plain.len() <= MAX_BODY);
        let mut packed = step.before.clone();
        let answer = packed.serve(station, &flat(&fields(&request)));
        assert_eq!(entered.serve(station, &plain), answer, "{:?}", step.call);
        if answer[0] == 0 {
            assert_eq!(entered, packed, "{:?}", step.call);
        } else {
            assert_eq!(packed, *step.before, "{:?}", step.call);
        }
        let is_create = matches!(request, Request::CreatePacked { .. });
        *seen.borrow_mut().entry((is_create, answer[0])).or_insert(0) += 1;
    });
    println!("14 and not, by status: {:?}", seen.borrow());
    let create = [0, 4, 5, 8].map(|status| (true, status));
    let restrict = [0, 2, 3, 5, 8].map(|status| (false, status));
    check_counts(&seen.borrow(), &[&create[..], &restrict].concat());
}
