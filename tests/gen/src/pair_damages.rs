//! Damages to pairs, each of which breaks one rule of valid memory.

use model::{pair_word, token_word, Elevation, Pair, TokenType, PAIRS};

use crate::damage::{references, Target};

/// A place with a pair, and one of its two tokens, whose number is the word.
fn member(t: &mut Target, fits: impl Fn(u64) -> bool) -> Option<(usize, usize, u64)> {
    let place = t.pair_place(|pair| pair.tokens().into_iter().any(&fits))?;
    let pair = t.model.pairs[place]?;
    let words = [(pair_word::ELEVATED, pair.elevated), (pair_word::FILTERED, pair.filtered)];
    let fitting: Vec<_> = words.into_iter().filter(|&(_, token)| fits(token)).collect();
    let (word, token) = t.rng.pick_any(&fitting)?;
    Some((place, word, token))
}

/// A word of such a member's token gets one of the values that it does not have.
fn member_word(
    t: &mut Target,
    fits: impl Fn(u64) -> bool,
    word: usize,
    values: &[u64],
) -> Option<()> {
    let (_, _, token) = member(t, fits)?;
    let slot = t.slot(|other| other.number == token)?;
    let now = *t.word(slot, word);
    let others: Vec<u64> = values.iter().copied().filter(|&value| value != now).collect();
    *t.word(slot, word) = t.rng.pick_any(&others)?;
    Some(())
}

/// A free place.
fn free(t: &mut Target) -> Option<usize> {
    let free: Vec<usize> = (0..PAIRS).filter(|&place| t.model.pairs[place].is_none()).collect();
    (!free.is_empty()).then(|| t.rng.pick(&free))
}

/// Writes a place.
fn set(t: &mut Target, place: usize, pair: Option<Pair>) {
    let words = pair.map_or([0; 3], |pair| [pair.session, pair.elevated, pair.filtered]);
    *t.pair(place, pair_word::SESSION) = words[0];
    *t.pair(place, pair_word::ELEVATED) = words[1];
    *t.pair(place, pair_word::FILTERED) = words[2];
}

pub(crate) fn dead_token(t: &mut Target) -> Option<()> {
    let model = t.model;
    let (place, word, _) = member(t, |token| references(model, token) > 1)?;
    let number = t.dead_number();
    let is_free = number == 0 && word == pair_word::ELEVATED;
    *t.pair(place, word) = if is_free { t.model.next_token } else { number };
    Some(())
}

/// A pair goes, and with it the last reference to one of its tokens.
pub(crate) fn no_pair(t: &mut Target) -> Option<()> {
    let place = t.pair_place(|_| true)?;
    let tokens = t.model.pairs[place]?.tokens();
    set(t, place, None);
    tokens.into_iter().any(|token| references(t.model, token) == 1).then_some(())
}

/// The elevated number tells a free place, so it is one of the others.
pub(crate) fn free_place(t: &mut Target) -> Option<()> {
    let place = free(t)?;
    let word = t.rng.pick(&[pair_word::SESSION, pair_word::FILTERED]);
    *t.pair(place, word) = t.rng.pick(&[1, t.model.stations[0].token, 999, 1 << 63]);
    Some(())
}

/// A pair and its tokens come to be of another pair's session.
pub(crate) fn one_session(t: &mut Target) -> Option<()> {
    let place = t.pair_place(|_| true)?;
    let pair = t.model.pairs[place]?;
    let other = t.pair_place(|other| other != pair)?;
    let session = t.model.pairs[other]?.session;
    *t.pair(place, pair_word::SESSION) = session;
    for number in pair.tokens() {
        let slot = t.slot(|token| token.number == number)?;
        *t.word(slot, token_word::SESSION) = session;
    }
    Some(())
}

pub(crate) fn twice(t: &mut Target) -> Option<()> {
    let (from, to) = (t.pair_place(|_| true)?, free(t)?);
    set(t, to, t.model.pairs[from]);
    Some(())
}

/// No station's own, which has to be primary.
pub(crate) fn other_type(t: &mut Target) -> Option<()> {
    let model = t.model;
    let of_station = |token| model.stations.iter().any(|station| station.token == token);
    let impersonation = [TokenType::Impersonation as u64];
    member_word(t, |token| !of_station(token), token_word::TYPE, &impersonation)
}

pub(crate) fn other_elevation(t: &mut Target) -> Option<()> {
    let all = [Elevation::Default, Elevation::Full, Elevation::Limited].map(|all| all as u64);
    member_word(t, |_| true, token_word::ELEVATION, &all)
}

pub(crate) fn exchanged(t: &mut Target) -> Option<()> {
    let place = t.pair_place(|_| true)?;
    let Pair { session, elevated, filtered } = t.model.pairs[place]?;
    set(t, place, Some(Pair { session, elevated: filtered, filtered: elevated }));
    Some(())
}

/// One token takes the place of the other, to which something else refers.
pub(crate) fn one_token(t: &mut Target) -> Option<()> {
    let model = t.model;
    let (place, word, token) = member(t, |token| references(model, token) > 1)?;
    *t.pair(place, word) = t.model.partner(token)?;
    Some(())
}

pub(crate) fn other_user(t: &mut Target) -> Option<()> {
    let users: Vec<u64> = t.model.sids.numbers().into_iter().map(u64::from).collect();
    member_word(t, |_| true, token_word::USER, &users)
}

pub(crate) fn other_session(t: &mut Target) -> Option<()> {
    member_word(t, |_| true, token_word::SESSION, &[0, 5, 9, 999, 1 << 32, u64::MAX])
}

/// The session of no pair, nor of its tokens.
pub(crate) fn session_of_none(t: &mut Target) -> Option<()> {
    let place = t.pair_place(|_| true)?;
    let sessions: Vec<u64> = t.model.pairs.iter().flatten().map(|pair| pair.session).collect();
    let others: Vec<u64> =
        [0, 5, 9, 77, 1 << 32].into_iter().filter(|session| !sessions.contains(session)).collect();
    *t.pair(place, pair_word::SESSION) = t.rng.pick(&others);
    Some(())
}
