//! Random pairs of a state, and a start for requests 16 and 17.

use model::{
    Elevation, Handle, Level, Mask, Model, Pair, Privileges, Token, TokenType, ALL_PRIVILEGES,
    HANDLES, PAIRS, STATIONS, TCB, TOKENS,
};

use crate::rng::Rng;
use crate::sids::{few_numbers, start_with_sids};

/// Sessions of pairs; tokens of random states are of some of them too.
const SESSIONS: [u64; 6] = [999, 9, u64::MAX, 0, 5, 6];

/// Links some of the primary tokens, which become of one user and session two by two; now and then the
/// others could be linked too, in another session.
pub(crate) fn place_pairs(rng: &mut Rng, model: &mut Model) {
    let slots: Vec<usize> = (0..TOKENS).filter(|&slot| is_primary(model, slot)).collect();
    let mut left = rng.shuffled(&slots);
    let most = rng.pick(&[0, 1, 2, PAIRS, PAIRS]).min(left.len() / 2);
    let sessions = rng.shuffled(&SESSIONS);
    let users = few_numbers(&model.sids);
    for (place, &session) in places(rng).into_iter().zip(&sessions).take(most) {
        let user = rng.pick(&users);
        let [elevated, filtered] = [Elevation::Full, Elevation::Limited].map(|elevation| {
            let slot = left.pop().expect("two for each pair");
            become_of(model, slot, user, session, elevation)
        });
        model.pairs[place] = Some(Pair { session, elevated, filtered });
    }
    if rng.percent(50) {
        for slot in left {
            become_of(model, slot, users[1], sessions[most], Elevation::Default);
        }
    }
}

/// The places in the order in which pairs fill them; in some memories a pair stands behind a free place.
fn places(rng: &mut Rng) -> Vec<usize> {
    let places: Vec<usize> = (0..PAIRS).collect();
    if rng.percent(30) {
        return rng.shuffled(&places);
    }
    places
}

/// Gives the token in the slot this user, session and elevation; gives its number.
fn become_of(model: &mut Model, slot: usize, user: u32, session: u64, elevation: Elevation) -> u64 {
    let token = model.tokens[slot].as_mut().expect("a token");
    (token.user, token.session, token.elevation) = (user, session, elevation);
    token.number
}

fn is_primary(model: &Model, slot: usize) -> bool {
    model.tokens[slot].as_ref().is_some_and(|token| token.kind == TokenType::Primary)
}

/// The tokens of [`with_pairs`]: the stations' own, with Tcb held and not, and those to be linked.
const OWN: usize = 2;
const OTHERS: usize = 12;
const LINKED_SESSIONS: usize = PAIRS + 1;
const FIRST_SESSION: u64 = 100;
const LINKED_USER: u32 = 50;

/// A start for requests 16 and 17. The stations' tokens hold Tcb or not; those that they have handles on
/// are of five sessions and differ in whatever request 16 reads; some are linked, and of these some have
/// no handle. Now and then all token slots are taken, or nearly all handle slots.
pub fn with_pairs(rng: &mut Rng) -> Model {
    let mut model = start_with_sids();
    for slot in 0..OWN {
        let enabled = if slot == 0 { ALL_PRIVILEGES } else { ALL_PRIVILEGES & !(1 << TCB) };
        let privileges = Privileges::new(ALL_PRIVILEGES, enabled);
        model.tokens[slot] =
            Some(Token { privileges, ..Token::bare(slot as u64 + 1, LINKED_USER, FIRST_SESSION) });
    }
    let others = if rng.percent(15) { TOKENS - OWN } else { OTHERS };
    for at in 0..others {
        let least_two = at < 2 * LINKED_SESSIONS;
        let session = if least_two { at % LINKED_SESSIONS } else { rng.below(LINKED_SESSIONS) };
        let (slot, session) = (OWN + at, FIRST_SESSION + session as u64);
        model.tokens[slot] = Some(random_other(rng, slot as u64 + 1, session));
    }
    let turn = rng.below(STATIONS);
    for (at, station) in model.stations.iter_mut().enumerate() {
        station.token = if (at + turn) % STATIONS < 5 { 1 } else { 2 };
    }
    link_some(rng, &mut model);
    place_handles(rng, &mut model);
    model.next_token = (OWN + others) as u64 + 1;
    model
}

/// A token to be linked, or one that something is against.
fn random_other(rng: &mut Rng, number: u64, session: u64) -> Token {
    let user = if rng.percent(25) { LINKED_USER + 1 } else { LINKED_USER };
    let default = Elevation::Default;
    let elevation = rng.pick(&[default, default, default, Elevation::Full, Elevation::Limited]);
    let privileges = Privileges::new(ALL_PRIVILEGES, 0);
    let restricting = rng.pick(&[&[][..], &[70, 71]]).to_vec();
    let token = Token { elevation, privileges, restricting, ..Token::bare(number, user, session) };
    if rng.percent(25) {
        return Token { kind: TokenType::Impersonation, level: Level::Identification, ..token };
    }
    token
}

/// Links two tokens of each of some sessions; where all places are taken, those of the fifth session are
/// mostly such as could be linked.
fn link_some(rng: &mut Rng, model: &mut Model) {
    let most = rng.pick(&[0, 1, 2, 3, PAIRS, PAIRS, PAIRS]);
    let sessions: Vec<u64> = (FIRST_SESSION..).take(LINKED_SESSIONS).collect();
    let order = places(rng);
    let mut taken = 0;
    for session in rng.shuffled(&sessions) {
        let is_its = |token: &&mut Token| token.session == session && token.number > OWN as u64;
        let mut tokens: Vec<_> = model.tokens.iter_mut().flatten().filter(is_its).collect();
        let alike = |token: &mut Token| Token {
            elevation: Elevation::Default,
            restricting: token.restricting.clone(),
            privileges: token.privileges,
            ..Token::bare(token.number, LINKED_USER, session)
        };
        if let ([elevated, filtered, ..], true) = (&mut tokens[..], taken < most) {
            **elevated = Token { elevation: Elevation::Full, ..alike(elevated) };
            **filtered = Token { elevation: Elevation::Limited, ..alike(filtered) };
            let (elevated, filtered) = (elevated.number, filtered.number);
            model.pairs[order[taken]] = Some(Pair { session, elevated, filtered });
            taken += 1;
        } else if taken == PAIRS && rng.percent(70) {
            tokens.into_iter().for_each(|token| *token = alike(token));
        }
    }
}

/// Handles on all tokens that nothing refers to and on most others, at stations that go by the token's
/// session; now and then so many that few slots are free.
fn place_handles(rng: &mut Rng, model: &mut Model) {
    let tokens: Vec<(u64, u64)> =
        model.tokens.iter().flatten().map(|token| (token.number, token.session)).collect();
    let mut wanted = Vec::new();
    for &(number, session) in &tokens {
        let is_needed = !model.is_referred_to(number);
        for copy in 0..2 {
            if (is_needed && copy == 0) || rng.percent(35) {
                let turn = rng.pick(&[0, 0, 0, LINKED_SESSIONS]);
                wanted.push((number, (session as usize + turn) % STATIONS));
            }
        }
    }
    if rng.percent(20) {
        let all = HANDLES - rng.below(3);
        wanted.resize_with(all.max(wanted.len()), || {
            let (number, _) = rng.pick(&tokens);
            (number, rng.below(STATIONS))
        });
    }
    for (slot, &(token, station)) in wanted.iter().enumerate().take(HANDLES) {
        let lacking = rng.pick(&[Mask::DUPLICATE.0, Mask::QUERY.0]);
        let mask = if rng.percent(15) { Mask::ALL.0 & !lacking } else { Mask::ALL.0 };
        let (station, number) = (station as u32, slot as u32 + 1);
        model.handles[slot] = Some(Handle { station, number, token, mask });
    }
    model.next_handle = HANDLES as u32 + 1;
}
