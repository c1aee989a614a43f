//! What demand 3 says of linked pairs, on the model itself: what a pair holds changes only by request 16,
//! a token's elevation too, and never from Full to Limited or back; a clone is its source but for its type
//! and level; and tokens live by pairs alone.

use std::cell::RefCell;
use std::collections::BTreeMap;

use gen::{each_seed, one_seed, run, state, with_pairs, Step};
use model::{
    Elevation, Handle, Level, Mask, Model, Pair, Request, Token, TokenType, PAIRS, STATIONS, TCB,
};

/// Many scripts, from the start and from states with pairs.
fn run_all(check: impl Fn(&Step) + Copy) {
    each_seed(0..10, |seed, _| run(seed, Model::start(), 500, check));
    each_seed(100..300, |seed, rng| run(seed, state(rng), 150, check));
    each_seed(300..2300, |seed, rng| run(seed, with_pairs(rng), 100, check));
}

/// The request that a feed ended with success.
fn served(step: &Step) -> Option<(usize, Request)> {
    let (station, body) = step.ended().filter(|_| step.status() == Some(0))?;
    Some((station, Request::read(&body)?))
}

/// The token of the station's live handle.
fn token_of(model: &Model, station: usize, number: u32) -> &Token {
    let is_it = |handle: &&Handle| handle.number == number && handle.station as usize == station;
    let handle = model.handles.iter().flatten().find(is_it).expect("a success has a handle");
    model.token(handle.token).expect("it lives")
}

/// Each case came so often at least, unless one seed alone is run.
fn check_counts<C: Ord + std::fmt::Debug>(
    seen: &BTreeMap<C, usize>,
    cases: impl IntoIterator<Item = C>,
) {
    for case in cases {
        let count = seen.get(&case).copied().unwrap_or(0);
        assert!(one_seed().is_some() || count >= 10, "{case:?}: {count}");
    }
}

/// The pair that a success of request 16 asks for.
fn asked_pair(step: &Step) -> Option<Pair> {
    let (station, Request::Link { elevated, filtered, session }) = served(step)? else {
        return None;
    };
    let [elevated, filtered] =
        [elevated, filtered].map(|handle| token_of(step.before, station, handle).number);
    Some(Pair { session, elevated, filtered })
}

#[test]
fn pairs_change_by_request_16_alone_and_in_one_place() {
    let seen = RefCell::new(BTreeMap::new());
    run_all(|step| {
        let (before, after) = (step.before.pairs, step.after.pairs);
        let Some(pair) = asked_pair(step) else {
            return assert_eq!(before, after, "{:?}", step.call);
        };
        let is_its = |old: &Option<Pair>| old.is_some_and(|old| old.session == pair.session);
        let old = before.iter().position(is_its);
        let place = old.or_else(|| before.iter().position(Option::is_none)).expect("a place");
        let mut expected = before;
        expected[place] = Some(pair);
        assert_eq!(after, expected, "{:?}", step.call);
        *seen.borrow_mut().entry((place, old.is_some())).or_insert(0) += 1;
    });
    println!("links by place, and whether the session had a pair: {:?}", seen.borrow());
    let places = (0..PAIRS).flat_map(|place| [(place, false), (place, true)]);
    check_counts(&seen.borrow(), places);
}

#[test]
fn an_elevation_changes_by_request_16_alone_and_only_from_default() {
    let seen = RefCell::new(BTreeMap::new());
    run_all(|step| {
        let pair = asked_pair(step);
        for old in step.before.tokens.iter().flatten() {
            let Some(new) = step.after.token(old.number) else { continue };
            let expected = match pair {
                Some(pair) if pair.elevated == old.number => Elevation::Full,
                Some(pair) if pair.filtered == old.number => Elevation::Limited,
                _ => old.elevation,
            };
            assert_eq!(new.elevation, expected, "{:?}", step.call);
            let is_changed = old.elevation != new.elevation;
            assert!(!is_changed || old.elevation == Elevation::Default, "{:?}", step.call);
            let change = (is_changed, new.elevation as u32);
            *seen.borrow_mut().entry(change).or_insert(0) += 1;
        }
    });
    println!("elevations, changed or not: {:?}", seen.borrow());
    check_counts(&seen.borrow(), [(true, 2), (true, 3), (false, 2), (false, 3)]);
}

/// The state without the streams, with the tokens' elevations at 1 and the station's Tcb as used, and
/// without pairs and these tokens.
fn but_for(model: &Model, station: usize, gone: &[u64]) -> Model {
    let mut model = model.clone();
    for station in 0..STATIONS as u32 {
        model.reconnect(station);
    }
    model.pairs = [None; PAIRS];
    let own = model.stations[station].token;
    for slot in &mut model.tokens {
        let Some(token) = slot else { continue };
        token.elevation = Elevation::Default;
        if token.number == own {
            token.privileges.used |= 1 << TCB;
        }
        if gone.contains(&token.number) {
            *slot = None;
        }
    }
    model
}

#[test]
fn request_16_changes_nothing_else_and_marks_tcb() {
    let seen = RefCell::new(BTreeMap::new());
    run_all(|step| {
        let Some(pair) = asked_pair(step) else { return };
        let (station, _) = served(step).expect("it was asked");
        let old = step.before.pairs.into_iter().flatten().find(|old| old.session == pair.session);
        let lost: Vec<u64> = old.into_iter().flat_map(Pair::tokens).collect();
        let gone: Vec<u64> =
            lost.into_iter().filter(|&token| !step.after.is_referred_to(token)).collect();
        let [before, after] = [step.before, step.after].map(|model| but_for(model, station, &gone));
        assert_eq!(before, after, "{:?}", step.call);
        assert!(gone.iter().all(|&token| step.after.token(token).is_none()), "{:?}", step.call);
        let own = step.after.primary(station);
        assert_eq!(own.privileges.used >> TCB & 1, 1, "{:?}", step.call);
        *seen.borrow_mut().entry(gone.len()).or_insert(0) += 1;
    });
    println!("tokens freed by request 16: {:?}", seen.borrow());
    check_counts(&seen.borrow(), [0, 1, 2]);
}

/// The handle that the request gave, and the partner of the token that it was asked for.
fn given(step: &Step) -> Option<(usize, Handle, u64)> {
    let (station, Request::GetLinked { handle }) = served(step)? else { return None };
    let asked = token_of(step.before, station, handle).number;
    let mut pairs = step.before.pairs.into_iter().flatten();
    let pair = pairs.find(|pair| pair.tokens().contains(&asked)).expect("it is linked");
    let partner = if pair.elevated == asked { pair.filtered } else { pair.elevated };
    let is_new = |handle: &&Handle| handle.number == step.before.next_handle;
    let new = step.after.handles.iter().flatten().find(is_new).expect("a new handle");
    assert_eq!(new.station as usize, station);
    Some((station, *new, partner))
}

#[test]
fn request_17_gives_the_partner_or_its_clone() {
    let seen = RefCell::new(BTreeMap::new());
    run_all(|step| {
        let Some((station, handle, partner)) = given(step) else { return };
        let held = step.before.primary(station).privileges.enabled >> TCB & 1 == 1;
        let partner = step.before.token(partner).expect("a partner lives");
        let number = step.before.next_token;
        if held {
            assert_eq!((handle.token, handle.mask), (partner.number, Mask::ALL.0));
            assert_eq!(step.after.next_token, number, "{:?}", step.call);
        } else {
            assert_eq!((handle.token, handle.mask), (number, Mask::QUERY.0));
            let (kind, level) = (TokenType::Impersonation, Level::Identification);
            let modified = number;
            let expected = Token { number, modified, kind, level, ..partner.clone() };
            assert_eq!(step.after.token(number), Some(&expected), "{:?}", step.call);
            let mut pairs = step.after.pairs.iter().flatten();
            assert!(!pairs.any(|pair| pair.tokens().contains(&number)), "{:?}", step.call);
        }
        *seen.borrow_mut().entry((held, partner.elevation as u32)).or_insert(0) += 1;
    });
    println!("given, with Tcb or not, by the partner's elevation: {:?}", seen.borrow());
    let both = [Elevation::Full as u32, Elevation::Limited as u32];
    check_counts(&seen.borrow(), both.into_iter().flat_map(|to| [(true, to), (false, to)]));
}

#[test]
fn pairs_keep_tokens_alive() {
    let seen = RefCell::new(BTreeMap::new());
    run_all(|Step { call, after, .. }| {
        for pair in after.pairs.iter().flatten() {
            for (number, elevation) in
                [(pair.elevated, Elevation::Full), (pair.filtered, Elevation::Limited)]
            {
                let token = after.token(number).expect("a pair's token lives");
                assert_eq!(token.elevation, elevation, "{call:?}");
                let is_last = after.references().filter(|&other| other == number).count() == 1;
                *seen.borrow_mut().entry(is_last).or_insert(0) += 1;
            }
        }
    });
    println!("paired tokens that the pair alone keeps: {:?}", seen.borrow());
    check_counts(&seen.borrow(), [true, false]);
}
